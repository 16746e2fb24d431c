/* Tests of what is written for Linux without a C library, as a program over the shim itself: the heap, and the
   functions that copy. Its status is 0 where all is well, else 1, with the number of the line where it isn't. With a
   word it prints the path that port_realpath answers, or the number of the error; with two, where memory is refused,
   how many blocks it got. */
#include "linux.c"
#include "heap_tests.h"

/* A block that is mapped by itself keeps its bytes as it grows, may be any length, and is given back to the kernel. */
static int32_t mapped_blocks(void) {
    uint8_t *place = malloc(MAPPED - 1000);
    CHECK(place);
    memset(place, 7, MAPPED - 1000);
    for (size_t size = MAPPED - 1000, more; size < 1 << 26; size = more) {
        more = size + size / 2;
        place = realloc(place, more);
        CHECK(place && (uintptr_t)place % 16 == 0 && has_bytes(place, 7, size));
        memset(place + size, 7, more - size);
    }
    enum { BAD_ADDRESS = 14 };
    long head = (long)((block *)place - 1);
    CHECK(call(OPENAT, HERE, head, 0, 0, 0) == -NOT_THERE);
    free(place);
    CHECK(call(OPENAT, HERE, head, 0, 0, 0) == -BAD_ADDRESS);
    return 0;
}

/* The functions that copy, at each length and distance, beside loops that do it byte by byte. */
static int32_t copies(void) {
    static uint8_t from[600], to[600], wanted[600];
    for (size_t size = 0; size < 200; size++)
        for (size_t at = 0; at < 24; at++)
            for (size_t other = 0; other < 24; other += 5) {
                for (size_t i = 0; i < 600; i++) from[i] = i * 31 + size, to[i] = wanted[i] = i ^ at;
                for (size_t i = 0; i < size; i++) wanted[at + i] = from[other + i];
                CHECK(memcpy(to + at, from + other, size) == to + at && !memcmp(to, wanted, 600));
                for (size_t i = 0; i < 600; i++) wanted[i] = to[i];
                for (size_t i = 0; i < size; i++) wanted[at + i] = to[other + i];
                CHECK(memmove(to + at, to + other, size) == to + at && !memcmp(to, wanted, 600));
                for (size_t i = 0; i < size; i++) wanted[at + i] = 0xEE;
                CHECK(memset(to + at, 0x1EE, size) == to + at);
                for (size_t i = 0; i < 600; i++) CHECK(to[i] == wanted[i]);
            }
    CHECK(memcmp("ab", "ac", 2) < 0 && memcmp("\377", "\1", 1) > 0 && !memcmp("ab", "ac", 1) && !memcmp("a", "b", 0));
    return 0;
}

int32_t program(void) {
    if (arg_count == 2) {
        static char found[PATH_BYTES];
        if (port_realpath(args[1], found)) return print(found), 0;
        return say(error);
    }
    if (arg_count == 3) {
        size_t count;
        return refused(&count) || !say(count);
    }
    return heap() || mapped_blocks() || copies();
}
