/* Linux on x86-64, aarch64 or riscv64 by its own calls, with no C library: the program needs nothing but a kernel. */
#include "common.h"
#define HAS_MAPS
#include "heap.h"

/* The kernel's numbers of its calls, the program's start, and a call of the kernel, which answers an error below 0;
   a sixth word of it is 0. */
#if defined __x86_64__
enum { READ = 0, WRITE = 1, CLOSE = 3, FSTAT = 5, MMAP = 9, MUNMAP = 11, BRK = 12, SIGACTION = 13, MREMAP = 25,
       MADVISE = 28, FTRUNCATE = 77, GETCWD = 79, FCHMOD = 91, FCHOWN = 93, GETDENTS = 217, EXIT = 231, OPENAT = 257,
       FSTATAT = 262, UNLINKAT = 263, RENAME = 264, READLINKAT = 267, STATX = 332 };
__asm__(".globl _start\n_start: xor %ebp, %ebp\n mov %rsp, %rdi\n and $-16, %rsp\n call begin");
static long call(long number, long a, long b, long c, long d, long e) {
    long answer;
    register long fourth __asm__("r10") = d, fifth __asm__("r8") = e, sixth __asm__("r9") = 0;
    __asm__ volatile("syscall" : "=a"(answer) : "a"(number), "D"(a), "S"(b), "d"(c), "r"(fourth), "r"(fifth), "r"(sixth)
                     : "rcx", "r11", "memory");
    return answer;
}
#else
enum { GETCWD = 17, UNLINKAT = 35, FTRUNCATE = 46, FCHMOD = 52, FCHOWN = 55, OPENAT = 56, CLOSE = 57, GETDENTS = 61,
       READ = 63, WRITE = 64, READLINKAT = 78, FSTATAT = 79, FSTAT = 80, EXIT = 94, SIGACTION = 134, BRK = 214,
       MUNMAP = 215, MREMAP = 216, MMAP = 222, MADVISE = 233, STATX = 291 };
#if defined __aarch64__
enum { RENAME = 38 };
__asm__(".globl _start\n_start: mov x29, #0\n mov x30, #0\n mov x0, sp\n bl begin");
#define REGISTERS "x0", "x1", "x2", "x3", "x4", "x5", "x8", "svc 0"
#else
enum { RENAME = 276 }; /* renameat2, whose flags are 0 */
__asm__(".globl _start\n_start: mv a0, sp\n andi sp, sp, -16\n call begin");
#define REGISTERS "a0", "a1", "a2", "a3", "a4", "a5", "a7", "ecall"
#endif
#define CALL(R0, R1, R2, R3, R4, R5, NUMBER, TRAP)                                                                    \
    register long r0 __asm__(R0) = a, r1 __asm__(R1) = b, r2 __asm__(R2) = c, r3 __asm__(R3) = d, r4 __asm__(R4) = e; \
    register long r5 __asm__(R5) = 0, called __asm__(NUMBER) = number;                                                \
    __asm__ volatile(TRAP : "+r"(r0) : "r"(r1), "r"(r2), "r"(r3), "r"(r4), "r"(r5), "r"(called) : "memory");          \
    return r0
#define WITH(...) CALL(__VA_ARGS__)
static long call(long number, long a, long b, long c, long d, long e) { WITH(REGISTERS); }
#endif

static ptrdiff_t answered(long answer) { return answer < 0 ? failed(-answer) : answer; }

int32_t port_open(const char *path, int32_t flags, ...) {
    return answered(call(OPENAT, HERE, (long)path, flags, 0666, 0));
}
ptrdiff_t port_read(int32_t file, void *to, size_t size) { return answered(call(READ, file, (long)to, size, 0, 0)); }
ptrdiff_t port_write(int32_t file, const void *from, size_t size) {
    return answered(call(WRITE, file, (long)from, size, 0, 0));
}
int32_t port_close(int32_t file) { return answered(call(CLOSE, file, 0, 0, 0, 0)); }
int32_t port_fchmod(int32_t file, uint32_t mode) { return answered(call(FCHMOD, file, mode, 0, 0, 0)); }
int32_t port_fchown(int32_t file, uint32_t owner, uint32_t group) {
    return answered(call(FCHOWN, file, owner, group, 0, 0));
}
int32_t port_ftruncate(int32_t file, int64_t size) { return answered(call(FTRUNCATE, file, size, 0, 0, 0)); }
int32_t port_rename(const char *from, const char *to) {
    return answered(call(RENAME, HERE, (long)from, HERE, (long)to, 0));
}
int32_t port_unlink(const char *path) { return answered(call(UNLINKAT, HERE, (long)path, 0, 0, 0)); }

/* to read, for this program alone, a folder and no link that the path ends in */
#if defined __aarch64__
enum { FOLDER_ALONE = 02000000 | 040000 | 0100000 };
#else
enum { FOLDER_ALONE = 02000000 | 0200000 | 0400000 };
#endif
int32_t rattle_open_dir_at(int32_t folder, const char *path) {
    return answered(call(OPENAT, folder, (long)path, FOLDER_ALONE, 0, 0));
}
ptrdiff_t port_getdents64(int32_t folder, void *to, size_t size) {
    return answered(call(GETDENTS, folder, (long)to, size, 0, 0));
}

#if defined __x86_64__ || defined __aarch64__
/* The status of a file for kernels before 4.11, which have no statx: kind and mode, owner, group, number, device and
   size, which is all that the programs ask. */
static int32_t older_status(int32_t folder, const char *path, int32_t flags, file_status *to) {
#if defined __x86_64__
    struct {
        uint64_t device, number, links;
        uint32_t mode, owner, group, unused;
        uint64_t special, size, rest[11];
    } got;
#else
    struct {
        uint64_t device, number;
        uint32_t mode, links, owner, group;
        uint64_t special, unused, size, rest[9];
    } got;
#endif
    long answer = flags & OF_OPEN_FILE ? call(FSTAT, folder, (long)&got, 0, 0, 0)
                                       : call(FSTATAT, folder, (long)path, (long)&got, flags, 0);
    if (answer < 0) return failed(-answer);
    *to = (file_status){.told = BASIC_STATUS, .mode = got.mode, .links = got.links, .owner = got.owner,
                        .group = got.group, .number = got.number, .size = got.size,
                        .device_major = (got.device >> 8 & 0xFFF) | (got.device >> 32 & ~0xFFFu),
                        .device_minor = (got.device & 0xFF) | (got.device >> 12 & ~0xFFu)};
    return 0;
}
#else /* Linux for riscv64 is younger than statx */
static int32_t older_status(int32_t folder, const char *path, int32_t flags, file_status *to) {
    return failed(NO_CALL);
}
#endif

int32_t port_statx(int32_t folder, const char *path, int32_t flags, uint32_t asked, file_status *to) {
    long answer = call(STATX, folder, (long)path, flags, asked, (long)to);
    return answer == -NO_CALL ? older_status(folder, path, flags, to) : answered(answer);
}

static size_t length_of(const char *text) {
    size_t length = 0;
    while (text[length]) length++;
    return length;
}

/* A path on its way to be resolved: what is done, with a `/` before each part, what is left from `next` on, and how
   many links were followed. */
typedef struct {
    char *done, left[PATH_BYTES], text[PATH_BYTES];
    size_t size, next, links;
} way;

/* Reads the link whose path is done: answers its text's length, or an error below 0, -INVALID where it is no link. */
static long read_link(way *on) { return call(READLINKAT, HERE, (long)on->done, (long)on->text, PATH_BYTES - 1, 0); }

/* Takes a part back. */
static void go_up(way *on) {
    while (on->size && on->done[--on->size] != '/') continue;
}

/* Puts the text of a link, which replaces the last part, before what is left: answers 0, or an error below 0. */
static long follow(way *on, size_t length) {
    char *rest = on->left + on->next;
    size_t more = length_of(rest) + 1;
    if (++on->links > 40) return -TOO_MANY_LINKS;
    if (length + more > PATH_BYTES) return -TOO_LONG;
    __builtin_memmove(on->left + length, rest, more);
    __builtin_memcpy(on->left, on->text, length);
    on->next = 0;
    go_up(on);
    if (on->text[0] == '/') on->size = 0;
    return 0;
}

/* Goes on by a part, or to where it leads: answers 0, or an error below 0. */
static long go_on(way *on, const char *part, size_t length) {
    if (on->size + length + 3 > PATH_BYTES) return -TOO_LONG;
    on->done[on->size++] = '/';
    __builtin_memcpy(on->done + on->size, part, length);
    on->size += length;
    on->done[on->size] = 0;
    long answer = read_link(on);
    if (answer >= 0) return follow(on, answer);
    if (answer == -INVALID && on->left[on->next]) { /* more follows, so it has to be a folder */
        on->done[on->size] = '/', on->done[on->size + 1] = 0;
        answer = read_link(on);
    }
    return answer == -INVALID ? 0 : answer;
}

/* Goes through all parts: answers 0, or an error below 0. */
static long go_through(way *on) {
    for (;;) {
        while (on->left[on->next] == '/') on->next++;
        const char *part = on->left + on->next;
        size_t length = 0;
        while (part[length] && part[length] != '/') length++;
        if (!length) return 0;
        on->next += length;
        if (length == 1 && part[0] == '.') continue;
        if (length == 2 && part[0] == '.' && part[1] == '.') {
            go_up(on);
            continue;
        }
        long answer = go_on(on, part, length);
        if (answer < 0) return answer;
    }
}

char *port_realpath(const char *path, char *to) {
    way on = {.done = to};
    long answer = *path ? 0 : -NOT_THERE;
    __builtin_memcpy(on.left, path, length_of(path) + 1);
    if (*path && *path != '/') {
        answer = call(GETCWD, (long)to, PATH_BYTES, 0, 0, 0);
        if (answer >= 0) on.size = answer == 2 ? 0 : answer - 1; /* the root is no part */
    }
    if (answer >= 0) answer = go_through(&on);
    if (answer < 0) {
        failed(-answer);
        return NULL;
    }
    if (!on.size) to[on.size++] = '/';
    to[on.size] = 0;
    return to;
}

/* Asks that the pages of memory come many at once, of which so many bytes at its front were there before: each that is
   touched for the first time by itself costs a fault. Of little memory all come now (Linux 5.14 and later), of more
   those that are touched come by 2 MB where the kernel can. Answers the memory. */
static void *with_pages(uintptr_t place, size_t before, size_t bytes) {
    enum { LARGE = 14, POPULATE = 23, LITTLE = 1 << 21 };
    if (bytes < LITTLE) call(MADVISE, place + before, bytes - before, POPULATE, 0, 0);
    else call(MADVISE, place, bytes, LARGE, 0, 0);
    return (void *)place;
}

/* Whether a call of the kernel answers an address and no error. */
static int is_address(long answer) { return answer >= 0 || answer < -4095; }

/* Up to where the kernel gave memory. */
static uintptr_t has;

static int reach(uintptr_t to) {
    enum { MORE = 1 << 19, PAGE = 1 << 12 };
    if (to <= has) return 1;
    uintptr_t wanted = (to + MORE) & -(uintptr_t)MORE, least = to;
    if (call(BRK, wanted, 0, 0, 0, 0) == (long)wanted) {
        uintptr_t from = (has + PAGE - 1) & -(uintptr_t)PAGE;
        with_pages(from, 0, wanted - from);
        return (has = wanted) != 0;
    }
    return call(BRK, least, 0, 0, 0, 0) == (long)least && (has = least) != 0;
}

static void *map_new(size_t bytes) {
    enum { TO_READ_AND_WRITE = 3, OWN_WITHOUT_FILE = 0x22 };
    long answer = call(MMAP, 0, bytes, TO_READ_AND_WRITE, OWN_WITHOUT_FILE, -1);
    return is_address(answer) ? with_pages(answer, 0, bytes) : NULL;
}

static void *map_grown(void *place, size_t bytes, size_t wanted) {
    enum { MAY_MOVE = 1 };
    long answer = call(MREMAP, (long)place, bytes, wanted, MAY_MOVE, 0);
    return is_address(answer) ? with_pages(answer, bytes, wanted) : NULL;
}

static void map_back(void *place, size_t bytes) { call(MUNMAP, (long)place, bytes, 0, 0, 0); }

static char **environment;

ptrdiff_t rattle_env(const char *name, uint8_t *to, size_t size) {
    for (char **each = environment; *each; each++) {
        size_t length = 0;
        while (name[length] && (*each)[length] == name[length]) length++;
        if (!name[length] && (*each)[length] == '=') return put(*each + length + 1, to, size);
    }
    return -1;
}

/* The functions that clang calls for copies, whose bodies it mustn't take for calls of themselves. */
#define PLAIN __attribute__((no_builtin, used))
typedef struct { uint64_t is; } __attribute__((packed, may_alias)) word;
typedef struct { uint32_t is; } __attribute__((packed, may_alias)) half;
typedef long pair __attribute__((vector_size(16), aligned(1), may_alias));

/* Copies up to 16 bytes, which may overlap: all are read before any is written. */
static void copy_few(uint8_t *to, const uint8_t *from, size_t size) {
    if (size >= 8) {
        uint64_t first = ((const word *)from)->is, last = ((const word *)(from + size - 8))->is;
        ((word *)to)->is = first, ((word *)(to + size - 8))->is = last;
    } else if (size >= 4) {
        uint32_t first = ((const half *)from)->is, last = ((const half *)(from + size - 4))->is;
        ((half *)to)->is = first, ((half *)(to + size - 4))->is = last;
    } else if (size) {
        uint8_t first = from[0], middle = from[size / 2], last = from[size - 1];
        to[0] = first, to[size / 2] = middle, to[size - 1] = last;
    }
}
PLAIN void *memcpy(void *to, const void *from, size_t size) {
    uint8_t *at = to;
    const uint8_t *of = from;
    if (size <= 16) {
        copy_few(at, of, size);
        return to;
    }
#if defined __x86_64__
    if (size > 1024) {
        void *rest = to;
        __asm__ volatile("rep movsb" : "+D"(rest), "+S"(of), "+c"(size) : : "memory");
        return to;
    }
#endif
    pair last = *(const pair *)(of + size - 16);
    for (size_t i = 0; i + 16 < size; i += 16) *(pair *)(at + i) = *(const pair *)(of + i);
    *(pair *)(at + size - 16) = last;
    return to;
}
/* Where `to` lies before `from`, or behind all of it, copying from the front is right. */
PLAIN void *memmove(void *to, const void *from, size_t size) {
    uint8_t *at = to;
    const uint8_t *of = from;
    if (size <= 16) copy_few(at, of, size);
    else if ((uintptr_t)to - (uintptr_t)from >= size && (uintptr_t)from - (uintptr_t)to >= size) memcpy(to, from, size);
    else if (to < from) {
        pair last = *(const pair *)(of + size - 16);
        for (size_t i = 0; i + 16 < size; i += 16) *(pair *)(at + i) = *(const pair *)(of + i);
        *(pair *)(at + size - 16) = last;
    } else {
        pair first = *(const pair *)of;
        for (size_t i = size; i > 16; i -= 16) *(pair *)(at + i - 16) = *(const pair *)(of + i - 16);
        *(pair *)at = first;
    }
    return to;
}
PLAIN void *memset(void *to, int value, size_t size) {
    uint8_t *at = to, byte = value;
    if (size < 4) { /* most are */
        if (size) at[0] = byte, at[size / 2] = byte, at[size - 1] = byte;
        return to;
    }
    uint64_t filled = byte * 0x0101010101010101u;
    if (size < 8) {
        ((half *)at)->is = filled, ((half *)(at + size - 4))->is = filled;
        return to;
    }
#if defined __x86_64__
    if (size > 1024) {
        void *rest = to;
        __asm__ volatile("rep stosb" : "+D"(rest), "+c"(size) : "a"(value) : "memory");
        return to;
    }
#endif
    for (size_t i = 0; i + 8 < size; i += 8) ((word *)(at + i))->is = filled;
    ((word *)(at + size - 8))->is = filled;
    return to;
}
PLAIN int memcmp(const void *one, const void *other, size_t size) {
    const uint8_t *a = one, *b = other;
    while (size >= 8 && ((const word *)a)->is == ((const word *)b)->is) a += 8, b += 8, size -= 8;
    for (size_t i = 0; i < size; i++)
        if (a[i] != b[i]) return a[i] - b[i];
    return 0;
}

/* Called at the program's start with its stack, as the kernel leaves it: the count of words, the words, a NULL, the
   environment. */
__attribute__((used)) void begin(size_t *stack) {
    static const long ignored[4] = {1}; /* SIG_IGN, so that a pipe that nobody reads is an error of write */
    arg_count = *stack;
    args = (char **)(stack + 1);
    environment = args + arg_count + 1;
    end = has = (call(BRK, 0, 0, 0, 0, 0) + 15) & ~(uintptr_t)15;
    call(SIGACTION, 13, (long)ignored, 0, 8, 0);
    call(EXIT, program(), 0, 0, 0, 0);
    for (;;) continue;
}
