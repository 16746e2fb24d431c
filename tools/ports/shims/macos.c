/* macOS, without its headers, which the kit lacks: what is used of libSystem is declared here. */
#include "common.h"

/* stat, with numbers of files in 64 bits */
typedef struct {
    int32_t device;
    uint16_t mode, links;
    uint64_t number;
    uint32_t owner, group;
    int32_t special;
    int64_t times[8], size, blocks;
    int32_t block_size;
    uint32_t flags, generation;
    int32_t spare;
    int64_t more[2];
} mac_status;
_Static_assert(sizeof(mac_status) == 144, "the layout of macOS's stat");

#if defined __x86_64__
#define OF_64_BITS(name) __asm__("_" name "$INODE64")
#else
#define OF_64_BITS(name)
#endif
int stat(const char *path, mac_status *to) OF_64_BITS("stat");
int lstat(const char *path, mac_status *to) OF_64_BITS("lstat");
int fstat(int file, mac_status *to) OF_64_BITS("fstat");
int open(const char *path, int how, ...);
ptrdiff_t read(int file, void *to, size_t size);
ptrdiff_t write(int file, const void *from, size_t size);
int close(int file);
int fchmod(int file, uint16_t mode);
int fchown(int file, uint32_t owner, uint32_t group);
int ftruncate(int file, int64_t size);
int rename(const char *from, const char *to);
int unlink(const char *path);
char *realpath(const char *path, char *to);
char *getenv(const char *name);
void (*signal(int number, void (*action)(int)))(int);
int *__error(void);

/* Keeps Linux's number of macOS's error, and answers that there is one. */
static int32_t failed_in_c(void) {
    switch (*__error()) {
    case 1: return failed(NO_ACCESS);
    case 62: return failed(TOO_MANY_LINKS);
    case 63: return failed(TOO_LONG);
    case 69: return failed(NO_SPACE); /* of the user's share */
    default: return failed(*__error() < 35 ? *__error() : IO_FAILED);
    }
}

static ptrdiff_t answered(ptrdiff_t answer) { return answer < 0 ? failed_in_c() : answer; }
static size_t some(size_t size) { return size < 1 << 30 ? size : 1 << 30; }

int32_t port_open(const char *path, int32_t flags, ...) {
    int how = 0x01020000 | (flags & 3); /* O_CLOEXEC and O_NOCTTY */
    if (flags & MAY_MAKE) how |= 0x200;
    if (flags & MUST_MAKE) how |= 0x800;
    if (flags & TO_EMPTY) how |= 0x400;
    if (flags & AT_END) how |= 8;
    return answered(open(path, how, 0666));
}

ptrdiff_t port_read(int32_t file, void *to, size_t size) { return answered(read(file, to, some(size))); }
ptrdiff_t port_write(int32_t file, const void *from, size_t size) { return answered(write(file, from, some(size))); }
int32_t port_close(int32_t file) { return answered(close(file)); }

int32_t port_statx(int32_t folder, const char *path, int32_t flags, uint32_t asked, file_status *to) {
    mac_status got;
    int answer = flags & OF_OPEN_FILE ? fstat(folder, &got) : flags & OF_LINK ? lstat(path, &got) : stat(path, &got);
    if (answer < 0) return failed_in_c();
    *to = (file_status){.told = BASIC_STATUS, .links = got.links, .mode = got.mode, .owner = got.owner,
                        .group = got.group, .number = got.number, .size = got.size, .device_minor = got.device};
    return 0;
}

int32_t port_fchmod(int32_t file, uint32_t mode) { return answered(fchmod(file, mode)); }
int32_t port_fchown(int32_t file, uint32_t owner, uint32_t group) { return answered(fchown(file, owner, group)); }
int32_t port_ftruncate(int32_t file, int64_t size) { return answered(ftruncate(file, size)); }
int32_t port_rename(const char *from, const char *to) { return answered(rename(from, to)); }
int32_t port_unlink(const char *path) { return answered(unlink(path)); }

/* No folder is listed: most disks tell no cases apart, and on the others names count as they are written. */
int32_t rattle_open_dir_at(int32_t folder, const char *path) { return failed(NO_CALL); }
ptrdiff_t port_getdents64(int32_t folder, void *to, size_t size) { return failed(NO_CALL); }

char *port_realpath(const char *path, char *to) {
    if (realpath(path, to)) return to;
    failed_in_c();
    return NULL;
}

ptrdiff_t rattle_env(const char *name, uint8_t *to, size_t size) { return put(getenv(name), to, size); }

int main(int count, char **words) {
    arg_count = count;
    args = words;
    signal(13, (void (*)(int))1); /* a pipe that nobody reads is an error of write */
    return program();
}
