/* What a program's module calls of its surroundings, and what of it is the same on each system. The names that C
   libraries have too begin with port_ here: tools/ports/retarget renames them in the module. Flags, modes and errors
   have the numbers that they have on Linux, with which the program was proved. */
#if __has_include(<stddef.h>) && __has_include(<stdint.h>)
#include <stddef.h>
#include <stdint.h>
#else /* the kit's clang comes without headers */
typedef __SIZE_TYPE__ size_t;
typedef __PTRDIFF_TYPE__ ptrdiff_t;
typedef __INTPTR_TYPE__ intptr_t;
typedef __UINTPTR_TYPE__ uintptr_t;
typedef __INT32_TYPE__ int32_t;
typedef __INT64_TYPE__ int64_t;
typedef __UINT32_TYPE__ uint32_t;
typedef __UINT64_TYPE__ uint64_t;
typedef __UINT16_TYPE__ uint16_t;
typedef __UINT8_TYPE__ uint8_t;
#define NULL ((void *)0)
#define UINT32_MAX 0xFFFFFFFFu
#endif

/* of port_open */
enum { TO_WRITE = 1, TO_UPDATE = 2, MAY_MAKE = 0100, MUST_MAKE = 0200, TO_EMPTY = 01000, AT_END = 02000 };
/* of port_statx: the folder where relative paths begin; tell of a link itself; tell of an open file, for no path */
enum { HERE = -100, OF_LINK = 0x100, OF_OPEN_FILE = 0x1000 };
/* kinds of files in a mode, and what of a status is told */
enum { IS_PIPE = 0010000, IS_DEVICE = 0020000, IS_DIRECTORY = 0040000, IS_REGULAR = 0100000, IS_LINK = 0120000 };
enum { BASIC_STATUS = 0x7FF };
/* errors */
enum { NOT_ALLOWED = 1, NOT_THERE = 2, INTERRUPTED = 4, IO_FAILED = 5, NOT_OPEN = 9, NO_MEMORY = 12, NO_ACCESS = 13,
       IS_THERE = 17, OTHER_DEVICE = 18, NO_FOLDER = 20, IS_FOLDER = 21, INVALID = 22, TOO_MANY_OPEN = 24,
       TOO_LARGE = 27, NO_SPACE = 28, READ_ONLY = 30, NO_READER = 32, TOO_LONG = 36, NO_CALL = 38,
       TOO_MANY_LINKS = 40 };
/* the bytes of a path with the 0 that ends it, and of the array that port_realpath fills */
enum { PATH_BYTES = 4096 };

/* What is known of a file: Linux's statx. */
typedef struct {
    int64_t seconds;
    uint32_t nanoseconds;
    int32_t unused;
} stamp;

typedef struct {
    uint32_t told, block_size;
    uint64_t attributes;
    uint32_t links, owner, group;
    uint16_t mode, unused;
    uint64_t number, size, blocks, attributes_told;
    stamp accessed, created, changed, modified;
    uint32_t special_major, special_minor, device_major, device_minor;
    uint64_t spare[14];
} file_status;
_Static_assert(sizeof(file_status) == 256, "the layout of Linux's statx");

/* What the module calls. Each answers as POSIX's function of the name; where it fails, -1, with the error kept. A path
   ends in 0, within PATH_BYTES. A file's number is never below 0; 0, 1 and 2 are the three streams. */

/* Opens a file. Where one is made, its mode is 0666, less what the user masks. */
int32_t port_open(const char *path, int32_t flags, ...);
/* Reads up to so many bytes: answers how many, 0 at the end and only there. */
ptrdiff_t port_read(int32_t file, void *to, size_t size);
/* Writes: answers how many bytes were taken, which may be fewer than all. */
ptrdiff_t port_write(int32_t file, const void *from, size_t size);
int32_t port_close(int32_t file);
/* Tells of the file at a path, or of an open one. */
int32_t port_statx(int32_t folder, const char *path, int32_t flags, uint32_t asked, file_status *to);
int32_t port_fchmod(int32_t file, uint32_t mode);
int32_t port_fchown(int32_t file, uint32_t owner, uint32_t group);
/* Makes a file so long. Where the next byte is written stays as it was. */
int32_t port_ftruncate(int32_t file, int64_t size);
/* Gives a file another name. What stands there before is replaced, whole. */
int32_t port_rename(const char *from, const char *to);
int32_t port_unlink(const char *path);
/* Puts a file's absolute path, with no link in it and parts behind `/`, into PATH_BYTES: answers `to`, or NULL. */
char *port_realpath(const char *path, char *to);
/* Opens a folder, whose path is `.` or ends in `/`, so that its names can be read. */
int32_t rattle_open_dir_at(int32_t folder, const char *path);
/* Puts the next names of an open folder at the start of `to`, in the form of Linux's getdents64: answers how many bytes
   they take, 0 at the end. Where a system can't list folders, as it needn't where names tell no cases apart, this and
   the function before it fail, and names are looked for as they are written. */
ptrdiff_t port_getdents64(int32_t folder, void *to, size_t size);
/* Puts a variable's value at the start of `to`: answers its length, -1 for none, or -2 where it doesn't fit. */
ptrdiff_t rattle_env(const char *name, uint8_t *to, size_t size);

/* What a shim calls: the program's main, which answers its status. */
int32_t program(void);

static int32_t error;
int32_t rattle_errno(void) { return error; }
void rattle_set_errno(int32_t number) { error = number; }

/* Keeps an error and answers that there is one. */
static int32_t failed(int32_t number) {
    error = number;
    return -1;
}

/* What no program here asks for, though the module has calls of it: an entry of the environment, waiting for a device,
   and locks. */
ptrdiff_t rattle_env_at(size_t i, uint8_t *to, size_t size) { return -1; }
int32_t port_fsync(int32_t file) { return failed(NO_CALL); }
int32_t port_fdatasync(int32_t file) { return failed(NO_CALL); }
int32_t port_flock(int32_t file, int32_t operation) { return failed(NO_CALL); }

#ifndef __wasm__
/* Puts a text at the start of a buffer, and answers its length, -1 for none, or -2 where it doesn't fit. */
static ptrdiff_t put(const char *text, uint8_t *to, size_t size) {
    if (!text) return -1;
    size_t length = 0;
    for (; text[length]; length++) {
        if (length == size) return -2;
        to[length] = text[length];
    }
    return length;
}

/* The words of the command line, the program's name first. */
static size_t arg_count;
static char **args;
size_t rattle_arg_count(void) { return arg_count; }
ptrdiff_t rattle_arg(size_t i, uint8_t *to, size_t size) { return put(i < arg_count ? args[i] : NULL, to, size); }
#endif
