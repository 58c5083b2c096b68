/* The methods of the benchmark and five kinds of packets to them. The methods are the first of /gG/nN, of which a hundred
   stand in each group G, with N in the order 1, 10 to 19, 0, 2 to 9, 20 to 99: so /gG/n1* meets as many of a group as it
   has, and at most eleven. The same numbers are drawn in every run. */
#ifndef WORKLOAD_H
#define WORKLOAD_H

#include <stdint.h>
#include <stdio.h>
#include <string.h>

enum { NAMES = 100, MOST_METHODS = 10000 };

enum kind {
    PLAIN = 0,         /* one int to a plain address */
    THREE = 1,         /* an int, a float and a string to a plain address */
    WILDCARD = 2,      /* one int to /gG/n1*, which meets n1 and n10 to n19: eleven methods where the group has so many */
    BUNDLE = 3,        /* an immediate bundle of ten messages of kind PLAIN */
    BUNDLE_THREE = 4   /* an immediate bundle of ten messages of kind THREE */
};

enum { BUNDLED = 10, MOST_BYTES = 1024 };

static uint64_t drawn = 1;

static unsigned draw(unsigned below) {
    drawn = drawn * 6364136223846793005ULL + 1442695040888963407ULL;
    return (unsigned)((drawn >> 33) % below);
}

/* How many methods stand. */
static unsigned methods = 1000;

static unsigned group_of(unsigned method) { return method / NAMES; }

static unsigned name_of(unsigned method) {
    unsigned place = method % NAMES;
    if (place == 0) return 1;
    if (place < 11) return place + 9;
    if (place == 11) return 0;
    return place < 20 ? place - 10 : place;
}

/* A string with its zero byte, padded with zero bytes to a multiple of four. */
static size_t put_string(unsigned char *out, const char *text) {
    size_t size = strlen(text) + 1;
    size_t padded = (size + 3) & ~(size_t)3;
    memset(out, 0, padded);
    memcpy(out, text, size);
    return padded;
}

static size_t put_word(unsigned char *out, uint32_t word) {
    for (int k = 0; k < 4; k++) out[k] = (unsigned char)(word >> (24 - 8 * k));
    return 4;
}

static size_t put_message(unsigned char *out, enum kind kind) {
    char address[32];
    unsigned method = draw(methods);
    if (kind == WILDCARD) snprintf(address, sizeof address, "/g%u/n1*", group_of(method));
    else snprintf(address, sizeof address, "/g%u/n%u", group_of(method), name_of(method));
    size_t size = put_string(out, address);
    size += put_string(out + size, kind == THREE ? ",ifs" : ",i");
    size += put_word(out + size, draw(1000000));
    if (kind == THREE) {
        size += put_word(out + size, 0x3f000000); /* 0.5 */
        size += put_string(out + size, "hello");
    }
    return size;
}

static size_t put_packet(unsigned char *out, enum kind kind) {
    if (kind < BUNDLE) return put_message(out, kind);
    size_t size = put_string(out, "#bundle");
    size += put_word(out + size, 0);
    size += put_word(out + size, 1);
    for (int k = 0; k < BUNDLED; k++) {
        size_t message = put_message(out + size + 4, kind == BUNDLE ? PLAIN : THREE);
        put_word(out + size, (uint32_t)message);
        size += 4 + message;
    }
    return size;
}

#endif
