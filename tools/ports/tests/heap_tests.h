/* Tests of a shim's heap, for a program over the shim, which is included before. Each answers 0 where all is well, else
   1, with the number of the line where it isn't printed. */

/* Ends the test with the number of this line unless it holds. */
#define CHECK(holds)                        \
    do {                                    \
        if (!(holds)) return say(__LINE__); \
    } while (0)

static void print(const char *text) {
    size_t length = 0;
    while (text[length]) length++;
    port_write(1, text, length);
}

/* Prints a number, and answers 1. */
static int32_t say(long number) {
    char text[24];
    size_t at = sizeof text - 2;
    text[at] = '\n', text[at + 1] = 0;
    do text[--at] = '0' + number % 10;
    while (number /= 10);
    print(text + at);
    return 1;
}

static int has_bytes(const uint8_t *place, uint8_t value, size_t size) {
    while (size--)
        if (*place++ != value) return 0;
    return 1;
}

/* Blocks of many sizes don't overlap, lie at multiples of 16, and keep their bytes when they grow. */
static int32_t blocks(void) {
    static uint8_t *places[400];
    for (size_t i = 0; i < 400; i++) {
        places[i] = malloc(i * 7 + 1);
        CHECK(places[i] && (uintptr_t)places[i] % 16 == 0);
        __builtin_memset(places[i], i, i * 7 + 1);
    }
    for (size_t i = 0; i < 400; i += 3) {
        places[i] = realloc(places[i], i * 50 + 1);
        CHECK(places[i] && (uintptr_t)places[i] % 16 == 0);
        CHECK(has_bytes(places[i], i, i * 7 + 1));
        __builtin_memset(places[i], i, i * 50 + 1);
    }
    for (size_t i = 0; i < 400; i++) CHECK(has_bytes(places[i], i, i * (i % 3 ? 7 : 50) + 1));
    for (size_t i = 0; i < 400; i++) free(places[i]);
    return 0;
}

/* What is given back is handed out again, so that memory doesn't grow, each block once; the last one grows in its
   place, and where it is given back, what is handed out ends before it. */
static int32_t again(void) {
    void *first = malloc(MAPPED - 1000), *kept = malloc(5000), *last = malloc(MAPPED), *same = last;
    CHECK(first && kept && last);
    uintptr_t before = end;
    for (size_t i = 0; i < 1000; i++) {
        free(first);
        void *other = malloc(5000);
        first = malloc(MAPPED - i);
        CHECK(first && other && first != other && first != last);
        free(other);
    }
    free(last);
    CHECK(end < before);
    before = end;
    last = same = malloc(60000);
    *(uint8_t *)last = 7;
    for (size_t size = 60000; size < MAPPED; size += 5000) {
        same = realloc(same, size);
        CHECK(same == last && *(uint8_t *)same == 7);
    }
    free(last);
    CHECK(end == before);
    free(first), free(kept), free(NULL);
    return 0;
}

/* Vectors that grow one behind the other, each second of which is given back when the next has grown, take no more
   memory than what is kept and a few of them. */
static int32_t vectors(void) {
    enum { COUNT = 200, GROWN = 24576 };
    static uint8_t *places[COUNT];
    uintptr_t before = end;
    for (size_t i = 0; i < COUNT; i++) {
        for (size_t size = 96; size <= GROWN; size *= 2) {
            places[i] = size == 96 ? malloc(size) : realloc(places[i], size);
            CHECK(places[i]);
            __builtin_memset(places[i] + size / 2, i, size / 2);
        }
        if (i % 2) free(places[i - 1]);
    }
    CHECK(end - before < (COUNT / 2 + 5) * GROWN);
    for (size_t i = 1; i < COUNT; i += 2) {
        CHECK(has_bytes(places[i] + 48, i, GROWN - 48));
        free(places[i]);
    }
    return 0;
}

/* Two gigabytes and more in one block; what can't be had is refused, and leaves the rest as it was. */
static int32_t large(void) {
    size_t size = ((size_t)2 << 30) + 5;
    uint8_t *place = malloc(size);
    CHECK(place);
    place[0] = 1, place[size - 1] = 2;
    CHECK(!malloc((size_t)1 << 45) && !malloc((size_t)1 << 46) && !malloc(((size_t)1 << 46) + 1) && !malloc(-1));
    CHECK(!realloc(place, (size_t)1 << 45) && !realloc(place, -16));
    CHECK(place[0] == 1 && place[size - 1] == 2);
    free(place);
    CHECK(malloc(100));
    return 0;
}

#ifndef HAS_MAPS
/* The last block grows where it stands, to any length; one behind which another stands keeps its bytes elsewhere. */
static int32_t grown(void) {
    enum { LONG = 1 << 24 };
    uint8_t *place = malloc(100), *last = NULL;
    CHECK(place);
    __builtin_memset(place, 7, 100);
    for (size_t size = 100, more; size < LONG; size = more) {
        more = size + size / 2;
        CHECK(realloc(place, more) == place && has_bytes(place, 7, size));
        __builtin_memset(place + size, 7, more - size);
    }
    CHECK((last = malloc(100)));
    uint8_t *other = realloc(place, 2 * LONG);
    CHECK(other && other != place && has_bytes(other, 7, LONG));
    free(last), free(other);
    return 0;
}
#endif

/* A block of those that are taken until there is no more memory: the one before it, and bytes that all have its
   number's value. */
typedef struct taken {
    struct taken *before;
    size_t size;
    uint8_t bytes[];
} taken;

/* How many bytes a block has behind its head, by its number. */
static size_t bytes_of(size_t number) {
    static const uint32_t sizes[] = {1, 40, 300, 5000, 100, 70000, 1000, 200000};
    return sizes[number % 8];
}

/* Takes blocks until memory is refused: answers the last one, and how many there are. */
static taken *all_there_is(size_t *count) {
    taken *last = NULL;
    for (*count = 0;; ++*count) {
        size_t size = bytes_of(*count);
        taken *it = malloc(sizeof *it + size);
        if (!it) return last;
        it->before = last, it->size = size;
        __builtin_memset(it->bytes, *count, size);
        last = it;
    }
}

/* Where memory is refused, each block holds what it held, and can't grow beyond all that there is; and what is given
   back can be had again. Answers how many blocks there were. */
static int32_t refused(size_t *count) {
    size_t again, number;
    taken *last = all_there_is(count), *before;
    CHECK(!malloc(sizeof *last + bytes_of(*count)) && !malloc((size_t)1 << 44));
    CHECK(!last || !realloc(last, (size_t)1 << 44));
    number = *count;
    for (taken *it = last; it; it = before) {
        before = it->before, number--;
        CHECK(it->size == bytes_of(number) && has_bytes(it->bytes, number, it->size));
        free(it);
    }
    CHECK(number == 0);
    for (taken *it = all_there_is(&again); it; it = before) before = it->before, free(it);
    CHECK(again >= *count);
    return 0;
}

/* The tests of the heap where there is memory. */
static int32_t heap(void) {
#ifndef HAS_MAPS
    if (grown()) return 1;
#endif
    return blocks() || again() || vectors() || large();
}
