/* Plays a script of `add`, `remove`, `send` and `pump` lines on a liblo server, handing it each packet in memory, and
   prints a line for each call: the address, the type tags and a word for each argument. A packet is dispatched as it is
   sent, or queued where its tag is later than now.

       lo_script < script.osc */
#include <lo/lo.h>
#include <stdint.h>
#include <stdio.h>
#include <stdlib.h>
#include <string.h>

enum { MOST_LINE = 200000 };

static void print_argument(char type, lo_arg *argument) {
    uint32_t word;
    switch (type) {
    case 'i':
        printf(" i:%d", argument->i);
        break;
    case 'f':
        memcpy(&word, &argument->f, 4);
        printf(" f:%08x", word);
        break;
    case 's':
        printf(" s:%s", &argument->s);
        break;
    default:
        printf(" %c", type);
    }
}

static int print_call(const char *path, const char *types, lo_arg **arguments, int count, lo_message message, void *address) {
    (void)path;
    (void)message;
    printf("call %s ,%s", (const char *)address, types);
    for (int k = 0; k < count; k++) print_argument(types[k], arguments[k]);
    putchar('\n');
    return 0;
}

static void print_fault(int number, const char *text, const char *where) {
    (void)text;
    (void)where;
    printf("fault %d\n", number);
}

static int digit(int character) {
    return character <= '9' ? character - '0' : (character | 32) - 'a' + 10;
}

/* The bytes of pairs of hexadecimal digits, up to the line's end. */
static size_t read_digits(const char *line, unsigned char *out) {
    size_t size = 0;
    for (; line[0] > ' ' && line[1] > ' '; line += 2)
        out[size++] = (unsigned char)(digit(line[0]) * 16 + digit(line[1]));
    return size;
}

int main(void) {
    static char line[MOST_LINE];
    static unsigned char packet[MOST_LINE / 2];
    lo_server server = lo_server_new_with_proto(NULL, LO_UDP, print_fault);
    if (!server) return 1;
    while (fgets(line, sizeof line, stdin)) {
        line[strcspn(line, "\n")] = 0;
        if (!strncmp(line, "add ", 4))
            lo_server_add_method(server, line + 4, NULL, print_call, strdup(line + 4));
        else if (!strncmp(line, "remove ", 7))
            lo_server_del_method(server, line + 7, NULL);
        else if (!strncmp(line, "send ", 5))
            lo_server_dispatch_data(server, packet, read_digits(line + 5, packet));
    }
    return 0;
}
