/* Sends a bundle in a bundle for each pair of an outer and an inner time tag: 1 (immediately), 0, and a second from now. The
   outer bundle has a message to /a, and the inner one a message to /b. Over TCP each bundle follows its size, or with `slip`
   is cut by SLIP.

       liblo_bundles URL [slip] */
#include <lo/lo.h>
#include <unistd.h>

static lo_bundle bundle_of(lo_timetag tag, const char *address, int number) {
    lo_message message = lo_message_new();
    lo_message_add_int32(message, number);
    lo_bundle bundle = lo_bundle_new(tag);
    lo_bundle_add_message(bundle, address, message);
    return bundle;
}

int main(int count_of_words, char **words) {
    if (count_of_words < 2) return 2;
    lo_address to = lo_address_new_from_url(words[1]);
    lo_address_set_stream_slip(to, count_of_words > 2);
    lo_timetag now;
    lo_timetag_now(&now);
    lo_timetag tags[] = {{0, 1}, {0, 0}, {now.sec + 1, 0}};
    for (int outer = 0; outer < 3; outer++)
        for (int inner = 0; inner < 3; inner++) {
            lo_bundle bundle = bundle_of(tags[outer], "/a", outer);
            lo_bundle_add_bundle(bundle, bundle_of(tags[inner], "/b", inner));
            lo_send_bundle(to, bundle);
            lo_bundle_free_recursive(bundle);
        }
    sleep(2); /* a link over TCP ends with its connection, and then what waits isn't called */
    lo_address_free(to);
    return 0;
}
