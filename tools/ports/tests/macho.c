/* Runs the x86-64 part of a universal Mach-O program on Linux, with functions of macOS's libSystem that are written
   here over the C library: macho PROGRAM NAME WORDS. It tests that file and its shim, and isn't macOS. The program has
   no more bytes of memory than the variable MACHO_MEMORY says, if it is there. */
#define _GNU_SOURCE
#include <errno.h>
#include <fcntl.h>
#include <malloc.h>
#include <signal.h>
#include <stdint.h>
#include <stdio.h>
#include <stdlib.h>
#include <string.h>
#include <strings.h>
#include <sys/mman.h>
#include <sys/stat.h>
#include <unistd.h>

/* macOS's numbers, where they are others than Linux's */
enum { MAC_LOOP = 62, MAC_TOO_LONG = 63, MAC_AGAIN = 35 };
enum { MAC_APPEND = 8, MAC_CREATE = 0x200, MAC_TRUNCATE = 0x400, MAC_EXCLUSIVE = 0x800, MAC_NO_TERMINAL = 0x20000,
       MAC_CLOSES = 0x1000000 };

static int mac_errno;

/* Keeps macOS's number of the error of a call that failed. */
static ssize_t noted(ssize_t answer) {
    if (answer >= 0) return answer;
    switch (errno) {
    case ENAMETOOLONG: mac_errno = MAC_TOO_LONG; break;
    case EAGAIN: mac_errno = MAC_AGAIN; break;
    case ELOOP: mac_errno = MAC_LOOP; break;
    default: mac_errno = errno;
    }
    return answer;
}

static int mac_open(const char *path, int how, ...) {
    int flags = how & 3;
    if (how & MAC_CREATE) flags |= O_CREAT;
    if (how & MAC_EXCLUSIVE) flags |= O_EXCL;
    if (how & MAC_TRUNCATE) flags |= O_TRUNC;
    if (how & MAC_APPEND) flags |= O_APPEND;
    if (!(how & MAC_NO_TERMINAL) || !(how & MAC_CLOSES)) abort();
    return noted(open(path, flags, 0666));
}
static ssize_t mac_read(int file, void *to, size_t size) { return noted(read(file, to, size)); }
static ssize_t mac_write(int file, const void *from, size_t size) { return noted(write(file, from, size)); }
static int mac_close(int file) { return noted(close(file)); }
static int mac_fchmod(int file, uint16_t mode) { return noted(fchmod(file, mode & 07777)); }
static int mac_fchown(int file, uint32_t owner, uint32_t group) { return noted(fchown(file, owner, group)); }
static int mac_ftruncate(int file, int64_t size) { return noted(ftruncate(file, size)); }
static int mac_rename(const char *from, const char *to) { return noted(rename(from, to)); }
static int mac_unlink(const char *path) { return noted(unlink(path)); }
static char *mac_realpath(const char *path, char *to) {
    char *found = realpath(path, to);
    if (!found) noted(-1);
    return found;
}
static int *mac_error(void) { return &mac_errno; }
static void mac_bzero(void *place, size_t size) { memset(place, 0, size); }

/* How many bytes of memory are left. What comes to more by some for the C library's own sake is still had. */
static int64_t memory_left = INT64_MAX;

static void *mac_malloc(size_t size) {
    void *place = (int64_t)size > memory_left ? NULL : malloc(size);
    memory_left -= malloc_usable_size(place);
    return place;
}
static void mac_free(void *place) {
    memory_left += malloc_usable_size(place);
    free(place);
}
static void *mac_realloc(void *place, size_t size) {
    int64_t had = malloc_usable_size(place);
    void *to = (int64_t)size - had > memory_left ? NULL : realloc(place, size);
    if (to) memory_left += had - (int64_t)malloc_usable_size(to);
    return to;
}

/* macOS's stat, as Apple's headers lay it out. */
typedef struct {
    int32_t device;
    uint16_t mode, links;
    uint64_t number;
    uint32_t owner, group;
    int32_t special;
    struct timespec accessed, modified, changed, created;
    int64_t size, blocks;
    int32_t block_size;
    uint32_t flags, generation;
    int32_t spare;
    int64_t more[2];
} mac_stat;

static int told(int answer, const struct stat *got, mac_stat *to) {
    *to = (mac_stat){.device = got->st_dev, .mode = got->st_mode, .links = got->st_nlink, .number = got->st_ino,
                     .owner = got->st_uid, .group = got->st_gid, .size = got->st_size};
    return noted(answer);
}
static int mac_fstat(int file, mac_stat *to) {
    struct stat got = {0};
    return told(fstat(file, &got), &got, to);
}
static int mac_stat_of(const char *path, mac_stat *to) {
    struct stat got = {0};
    return told(stat(path, &got), &got, to);
}
static int mac_lstat(const char *path, mac_stat *to) {
    struct stat got = {0};
    return told(lstat(path, &got), &got, to);
}

static const struct {
    const char *name;
    void *place;
} symbols[] = {
    {"_open", mac_open}, {"_read", mac_read}, {"_write", mac_write}, {"_close", mac_close}, {"_fchmod", mac_fchmod},
    {"_fchown", mac_fchown}, {"_ftruncate", mac_ftruncate}, {"_rename", mac_rename}, {"_unlink", mac_unlink},
    {"_realpath", mac_realpath}, {"___error", mac_error}, {"_stat$INODE64", mac_stat_of}, {"_getenv", getenv},
    {"_lstat$INODE64", mac_lstat}, {"_fstat$INODE64", mac_fstat}, {"_signal", signal}, {"_malloc", mac_malloc},
    {"_realloc", mac_realloc}, {"_free", mac_free}, {"_memcpy", memcpy}, {"_memmove", memmove}, {"_memset", memset},
    {"_memcmp", memcmp}, {"_bzero", mac_bzero}, {"___bzero", mac_bzero}, {"dyld_stub_binder", abort}};

static void fail(const char *what, const char *which) {
    fprintf(stderr, "macho: %s %s\n", what, which);
    exit(99);
}

static void *find(const char *name) {
    for (size_t i = 0; i < sizeof symbols / sizeof *symbols; i++)
        if (!strcmp(symbols[i].name, name)) return symbols[i].place;
    fail("there is no", name);
    return NULL;
}

static uint8_t *file;
static int64_t slide;
static uint64_t segments[16];
static int segment_count;

static uint64_t number(uint8_t **at) {
    uint64_t value = 0;
    int shift = 0;
    do value |= (uint64_t)(**at & 127) << shift, shift += 7;
    while (*(*at)++ & 128);
    return value;
}

/* Puts a symbol's place, or moves an address, `count` times, each `step` bytes further. */
static uint64_t put(uint64_t at, const char *name, uint64_t count, uint64_t step) {
    for (; count--; at += step) {
        if (name) *(void **)at = find(name);
        else *(int64_t *)at += slide;
    }
    return at;
}

/* Does what a list of addresses to be moved says. */
static void rebase(uint8_t *at, uint8_t *end) {
    uint64_t place = 0, count;
    while (at < end) {
        uint8_t what = *at & 0xF0, small = *at++ & 15;
        switch (what) {
        case 0x00: case 0x10: break;
        case 0x20: place = segments[small] + slide + number(&at); break;
        case 0x30: place += number(&at); break;
        case 0x40: place += small * 8; break;
        case 0x50: place = put(place, NULL, small, 8); break;
        case 0x60: place = put(place, NULL, number(&at), 8); break;
        case 0x70: place = put(place, NULL, 1, 8) + number(&at); break;
        case 0x80: count = number(&at), place = put(place, NULL, count, 8 + number(&at)); break;
        default: fail("a list has", "an unknown word");
        }
    }
}

/* Does what a list of symbols to be bound says. */
static void bind(uint8_t *at, uint8_t *end) {
    uint64_t place = 0, count;
    const char *name = NULL;
    while (at < end) {
        uint8_t what = *at & 0xF0, small = *at++ & 15;
        switch (what) {
        case 0x00: case 0x10: case 0x30: case 0x50: break;
        case 0x20: case 0x60: number(&at); break;
        case 0x40: name = (char *)at, at += strlen(name) + 1; break;
        case 0x70: place = segments[small] + slide + number(&at); break;
        case 0x80: place += number(&at); break;
        case 0x90: place = put(place, name, 1, 8); break;
        case 0xA0: place = put(place, name, 1, 8) + number(&at); break;
        case 0xB0: place = put(place, name, 1, 8 + small * 8); break;
        case 0xC0: count = number(&at), place = put(place, name, count, 8 + number(&at)); break;
        default: fail("a list has", "an unknown word");
        }
    }
}

/* The part of a universal file that is for x86-64. */
static uint8_t *part(uint8_t *whole) {
    if (__builtin_bswap32(*(uint32_t *)whole) != 0xCAFEBABE) return whole;
    for (uint32_t i = 0; i < __builtin_bswap32(*(uint32_t *)(whole + 4)); i++) {
        uint32_t *entry = (uint32_t *)(whole + 8 + 20 * i);
        if (__builtin_bswap32(*entry) == 0x01000007) return whole + __builtin_bswap32(entry[2]);
    }
    fail("there is no part for", "x86-64");
    return NULL;
}

int main(int count, char **words) {
    int opened = open(words[1], O_RDONLY);
    struct stat status;
    if (count < 3 || opened < 0 || fstat(opened, &status)) fail("can't read", count > 1 ? words[1] : "");
    file = part(mmap(0, status.st_size, PROT_READ, MAP_PRIVATE, opened, 0));
    close(opened);
    uint8_t *room = mmap(0, 1 << 25, PROT_READ | PROT_WRITE | PROT_EXEC, MAP_PRIVATE | MAP_ANONYMOUS, -1, 0);
    uint8_t *at = file + 32;
    uint64_t entry = 0;
    uint32_t *lists = NULL;
    for (uint32_t left = *(uint32_t *)(file + 16); left--; at += *(uint32_t *)(at + 4)) {
        uint64_t *segment = (uint64_t *)(at + 24);
        switch (*(uint32_t *)at) {
        case 0x19: /* a segment: address, size, place and size in the file */
            segments[segment_count++] = segment[0];
            if (!strcmp((char *)at + 8, "__PAGEZERO")) break;
            if (!strcmp((char *)at + 8, "__TEXT")) slide = (int64_t)room - (int64_t)segment[0];
            memcpy((void *)(segment[0] + slide), file + segment[2], segment[3]);
            break;
        case 0x80000028: entry = *(uint64_t *)(at + 8); break;
        case 0x80000022: lists = (uint32_t *)(at + 8); break;
        }
    }
    if (!lists) fail("there are no", "lists");
    if (getenv("MACHO_MEMORY")) memory_left = atol(getenv("MACHO_MEMORY"));
    rebase(file + lists[0], file + lists[0] + lists[1]);
    bind(file + lists[2], file + lists[2] + lists[3]);
    bind(file + lists[6], file + lists[6] + lists[7]);
    exit(((int (*)(int, char **))(room + entry))(count - 2, words + 2));
}
