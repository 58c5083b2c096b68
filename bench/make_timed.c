/* Writes a script: COUNT `send` lines of bundles of one message, due at moments that fall, rise or are mixed, then a `tick`
   to the last moment and a `pump`.

       make_timed ORDER COUNT > script.osc        ORDER is falling, rising or mixed */
#include <stdio.h>
#include <stdlib.h>
#include <string.h>

/* The second of the first moment, which is later than any run. */
static const long FIRST_SECOND = 0xf0000000;

/* The k-th of count numbers, which are those from 0 to count - 1. */
static long place(const char *order, long k, long count) {
    if (!strcmp(order, "falling")) return count - 1 - k;
    if (!strcmp(order, "rising")) return k;
    long step = 7919; /* a prime that divides no count that is tried */
    return k * step % count;
}

int main(int count_of_words, char **words) {
    if (count_of_words != 3) {
        fputs("make_timed ORDER COUNT\n", stderr);
        return 2;
    }
    long count = atol(words[2]);
    for (long k = 0; k < count; k++)
        printf("send 2362756e646c6500%08lx00000000000000082f6100002c000000\n", FIRST_SECOND + place(words[1], k, count));
    printf("tick %08lx00000000\npump\n", FIRST_SECOND + count);
    return 0;
}
