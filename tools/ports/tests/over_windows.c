/* Tests of the shim for Windows, as a program over it: under wine as it stands, and on Linux over a small Windows of
   its own (kernel32.h), where more can be chosen. Its status is 0 where all is well, else 1, with the number of the
   line where it isn't. */
#ifdef __linux__
#include "kernel32.h"
#define malloc port_malloc
#define free port_free
#define realloc port_realloc
#else
#include "windows.c"
#endif
#include "heap_tests.h"

/* Makes a file that holds a word of three letters: answers whether that was done. */
static int put_file(const char *path, const char *word) {
    int32_t file = port_open(path, TO_WRITE | MAY_MAKE | TO_EMPTY);
    return file >= STREAMS && port_write(file, word, 3) == 3 && !port_close(file);
}

/* Whether the rest of an open file is that word. */
static int reads(int32_t file, const char *word) {
    char got[10] = {0};
    return port_read(file, got, 10) == 3 && is_same(got, word) && port_read(file, got, 10) == 0;
}

/* Whether a file is there and holds that word. */
static int has_file(const char *path, const char *word) {
    int32_t file = port_open(path, 0);
    return file >= STREAMS && reads(file, word) && !port_close(file);
}

static int is_there(const char *path) {
    file_status unused;
    return !port_statx(HERE, path, 0, 0, &unused);
}

/* A file that is open has a number, which no other has, until it is closed; and what isn't there has none. */
static int32_t numbers(void) {
    int32_t places[9];
    for (size_t i = 0; i < 9; i++) {
        CHECK((places[i] = port_open("N", TO_UPDATE | MAY_MAKE)) >= STREAMS);
        for (size_t j = 0; j < i; j++) CHECK(places[i] != places[j]);
    }
    CHECK(port_write(places[3], "one", 3) == 3 && reads(places[7], "one"));
    CHECK(!port_close(places[7]) && port_close(places[7]) == -1 && error == NOT_OPEN && reads(places[4], "one"));
    CHECK(port_read(places[7], places, 1) == -1 && error == NOT_OPEN);
    CHECK(port_open("NONE", 0) == -1 && error == NOT_THERE);
    for (size_t i = 0; i < 9; i++) CHECK(i == 7 || !port_close(places[i]));
    CHECK(!port_unlink("N") && !is_there("N"));
    return 0;
}

/* A file is replaced, though it is open, by its whole path, as the programs do it; what stands beside it stays, nothing
   else is left there, and who has the older one open can read it. */
static int32_t replaced(void) {
    static char whole[PATH_BYTES];
    for (int is_open = 0; is_open < 2; is_open++) {
        CHECK(put_file("OUT", "old") && put_file("OUT.omf-old", "too") && put_file("NEW", "new"));
        int32_t older = is_open ? port_open("OUT", 0) : 0;
        CHECK(older >= 0 && port_realpath("OUT", whole) && !port_rename("NEW", whole));
        CHECK(has_file("OUT", "new") && !is_there("NEW") && has_file("OUT.omf-old", "too"));
        CHECK(!is_open || reads(older, "old") && !port_close(older));
        CHECK(!port_unlink("OUT") && !port_unlink("OUT.omf-old"));
    }
    CHECK(port_rename("NEW", "OUT") == -1 && error == NOT_THERE && !is_there("OUT"));
    CHECK(put_file("NEW", "new") && !port_rename("NEW", "OUT") && has_file("OUT", "new") && !port_unlink("OUT"));
    return 0;
}

#ifdef __linux__
/* How many files have a name. */
static int count_files(void) {
    int count = 0;
    for (size_t i = 0; i < COUNT_OF(entries); i++) count += *entries[i].name != 0;
    return count;
}

/* More files than there are numbers aren't opened, and take nothing. */
static int32_t too_many(void) {
    static int32_t places[MOST_FILES];
    size_t count = 0;
    CHECK(put_file("N", "one"));
    while ((places[count] = port_open("N", 0)) >= STREAMS) count++;
    CHECK(places[count] == -1 && error == TOO_MANY_OPEN && count == MOST_FILES - STREAMS);
    while (count) CHECK(!port_close(places[--count]));
    CHECK(!port_unlink("N") && !is_there("N"));
    return 0;
}

/* One that may only be read is neither opened to be written nor replaced; nothing is left beside it. */
static int32_t read_only(void) {
    for (int is_open = 0; is_open < 2; is_open++) {
        CHECK(put_file("OUT", "old") && put_file("NEW", "new"));
        int32_t older = is_open ? port_open("OUT", 0) : 0;
        named("OUT")->attributes |= IS_READ_ONLY;
        CHECK(port_open("OUT", TO_WRITE) == -1 && error == NO_ACCESS);
        CHECK(port_rename("NEW", "OUT") == -1 && error == NO_ACCESS);
        CHECK(has_file("OUT", "old") && has_file("NEW", "new") && count_files() == 2);
        CHECK(!is_open || !port_close(older));
        named("OUT")->attributes = 0;
        CHECK(!port_unlink("OUT") && !port_unlink("NEW"));
    }
    return 0;
}

/* Where Windows ends half-way the new file has the name after all; where it did nothing, all is as it was. */
static int32_t half_way(void) {
    for (uint32_t answer = 1175; answer < 1178; answer++) {
        CHECK(put_file("OUT", "old") && put_file("NEW", "new"));
        int32_t older = port_open("OUT", 0), is_done = answer != 1175;
        replacement_answers = answer;
        CHECK(port_rename("NEW", "OUT") == -!is_done && (is_done || error == NO_ACCESS));
        replacement_answers = 0;
        CHECK(has_file("OUT", is_done ? "new" : "old") && is_there("NEW") == !is_done && reads(older, "old"));
        CHECK(!port_close(older) && !port_unlink("OUT") && port_unlink("NEW") == -is_done);
        CHECK(port_unlink("OTHER") == -(answer != 1177) && count_files() == 0);
    }
    return 0;
}

/* A write that takes fewer bytes says so; a read's error is one, but that of a pipe whose writer has ended, which is
   the end. */
static int32_t streams(void) {
    char got[3];
    int32_t file = port_open("N", TO_UPDATE | MAY_MAKE);
    most_written = 2;
    CHECK(file >= STREAMS && port_write(file, "one", 3) == 2 && port_write(file, "e", 1) == 1);
    most_written = UINT32_MAX;
    CHECK(!port_close(file) && has_file("N", "one") && (file = port_open("N", 0)) >= STREAMS);
    read_answers = 23;
    CHECK(port_read(file, got, 3) == -1 && error == IO_FAILED);
    read_answers = 109;
    CHECK(port_read(file, got, 3) == 0);
    read_answers = 0;
    CHECK(reads(file, "one") && !port_close(file) && !port_unlink("N"));
    return 0;
}

/* Where no addresses are kept there is no memory; else it may end at each place. */
static int32_t ends_of_memory(void) {
    size_t count, before = 0;
    for (size_t most = 0; most < 40 << 20; most += 700001) {
        for (size_t i = 0; i < KINDS; i++) given_back[i] = NULL;
        end = has = kept = 0;
        most_kept = most == 0 ? 0 : most % 2 ? (size_t)1 << 28 : -1;
        memory_left = most == 0 ? -1 : most;
        keep_addresses();
        uintptr_t from = end;
        if (refused(&count)) return 1;
        CHECK(most == 0 ? !from && !count : from && count >= before);
        before = count;
        if (from) munmap((void *)from, kept - from);
    }
    CHECK(before > 500);
    return 0;
}

/* All of it, with handles that are small, that come to 2^31 and beyond, and that are there. */
static int32_t all(void) {
    static const uint32_t firsts[] = {0x54, 0x7FFFFFF4, 0x80000004};
    for (size_t i = 0; i < COUNT_OF(firsts); i++) {
        first_handle = firsts[i];
        if (numbers() || too_many() || replaced() || read_only() || half_way() || streams()) return 1;
    }
    return ends_of_memory();
}

int main(void) {
    begin();
    return 99;
}
#else
static int32_t all(void) { return numbers() || replaced(); }
#endif

int32_t program(void) { return heap() || all(); }
