/* Writes a script: an `add` line for each of the methods, 1,000 of them where no word says otherwise, then COUNT `send` lines
   of one kind, with a `pump` after every 100 of them and after the last.

       make_script KIND COUNT [METHODS] > script.osc */
#include "workload.h"
#include <stdlib.h>

int main(int count_of_words, char **words) {
    unsigned char packet[MOST_BYTES];
    if (count_of_words == 4) methods = (unsigned)atoi(words[3]);
    if (count_of_words < 3 || count_of_words > 4 || methods < 1 || methods > MOST_METHODS) {
        fputs("make_script KIND COUNT [METHODS]\n", stderr);
        return 2;
    }
    enum kind kind = (enum kind)atoi(words[1]);
    long count = atol(words[2]);
    for (unsigned method = 0; method < methods; method++)
        printf("add /g%u/n%u\n", group_of(method), name_of(method));
    for (long sent = 1; sent <= count; sent++) {
        size_t size = put_packet(packet, kind);
        fputs("send ", stdout);
        for (size_t at = 0; at < size; at++) printf("%02x", packet[at]);
        putchar('\n');
        if (sent % 100 == 0 || sent == count) puts("pump");
    }
    return 0;
}
