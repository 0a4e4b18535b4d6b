/*
 * The library for whoever has no C library: linked with -nostdlib, beside memcpy and memset of its own, since it needs
 * nothing else from outside. It is linked and not run.
 */
#include "wethrynda.h"

void *memcpy(void *to, const void *from, size_t size);
void *memset(void *to, int byte, size_t size);
void _start(void);

void *memcpy(void *to, const void *from, size_t size) {
    volatile unsigned char *bytes = to;
    for (size_t i = 0; i < size; i++) {
        bytes[i] = ((const unsigned char *)from)[i];
    }
    return to;
}

void *memset(void *to, int byte, size_t size) {
    volatile unsigned char *bytes = to;
    for (size_t i = 0; i < size; i++) {
        bytes[i] = (unsigned char)byte;
    }
    return to;
}

void _start(void) {
    wethrynda_record(NULL, 0, NULL, 0);
    wethrynda_exchange(NULL, 0);
    wethrynda_sentences(NULL, 0, NULL, 0, NULL, 0, NULL);
    wethrynda_independent(NULL, 0, 0);
    for (;;) {
    }
}
