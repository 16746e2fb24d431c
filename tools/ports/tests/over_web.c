/* Tests of the shim for WebAssembly, as a module over it, which over_web.mjs runs by its one word: `heap`, `streams`,
   or, where memory is refused, `refused`, which prints how many blocks it got. Its status is 0 where all is well, else
   1, with the number of the line where it isn't. */
#include "web.c"
#include "heap_tests.h"

/* A write of which the host takes two bytes says so, and one that it refuses has its error; so has a read of a folder,
   and where a file ends a read answers that. */
static int32_t streams(void) {
    char got[4];
    CHECK(port_write(1, "abc", 3) == 2);
    CHECK(port_write(1, "c", 1) == -1 && error == NO_SPACE);
    CHECK(port_write(1, "c", 1) == 1);
    int32_t folder = port_open("folder", 0), file = port_open("folder/file", 0);
    CHECK(folder > 2 && port_read(folder, got, 4) == -1 && error == IS_FOLDER);
    CHECK(file > 2 && port_read(file, got, 2) == 2 && port_read(file, got, 4) == 1 && port_read(file, got, 4) == 0);
    CHECK(port_write(file, "c", 1) == -1 && error == NOT_OPEN && !port_close(file) && port_close(file) == -1);
    return 0;
}

int32_t program(void) {
    uint8_t word[8] = {0};
    size_t count;
    rattle_arg(1, word, sizeof word);
    if (word[0] == 'h') return heap();
    if (word[0] == 's') return streams();
    return refused(&count) || !say(count);
}
