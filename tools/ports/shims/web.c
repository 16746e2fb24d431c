/* WebAssembly. A page or node is its host: it has the files, and hands in these functions under the name host. */
#include "common.h"

/* Each answers a number or a length, or an error's number below 0. What it takes or fills lies in memory, at an address
   and of so many bytes. */
#define HOST(name) __attribute__((import_module("host"), import_name(#name))) int32_t host_##name
HOST(open)(uint32_t path, uint32_t length, int32_t flags);
HOST(read)(int32_t file, uint32_t to, uint32_t size);
HOST(write)(int32_t file, uint32_t from, uint32_t size);
HOST(close)(int32_t file);
/* Fills a `told` for a path, or for an open file where that isn't below 0. */
HOST(look)(int32_t file, uint32_t path, uint32_t length, uint32_t to);
HOST(cut)(int32_t file, uint32_t size);
HOST(rename)(uint32_t from, uint32_t length, uint32_t to, uint32_t other_length);
HOST(unlink)(uint32_t path, uint32_t length);
HOST(resolve)(uint32_t path, uint32_t length, uint32_t to, uint32_t size);
HOST(arg_count)(void);
HOST(arg)(uint32_t i, uint32_t to, uint32_t size);
HOST(env)(uint32_t name, uint32_t length, uint32_t to, uint32_t size);

/* What a host tells of a file. */
typedef struct {
    uint32_t mode, number, size;
} told;

static uint32_t at(const void *place) { return (uintptr_t)place; }
static uint32_t within(size_t size) { return size < 1 << 30 ? size : 1 << 30; }
static int32_t answered(int32_t answer) { return answer < 0 ? failed(-answer) : answer; }

static uint32_t length_of(const char *text) {
    uint32_t length = 0;
    while (text[length]) length++;
    return length;
}

int32_t port_open(const char *path, int32_t flags, ...) {
    return answered(host_open(at(path), length_of(path), flags));
}
ptrdiff_t port_read(int32_t file, void *to, size_t size) { return answered(host_read(file, at(to), within(size))); }
ptrdiff_t port_write(int32_t file, const void *from, size_t size) {
    return answered(host_write(file, at(from), within(size)));
}
int32_t port_close(int32_t file) { return answered(host_close(file)); }

int32_t port_statx(int32_t folder, const char *path, int32_t flags, uint32_t asked, file_status *to) {
    told found = {0};
    int32_t answer = host_look(flags & OF_OPEN_FILE ? folder : -1, at(path), length_of(path), at(&found));
    *to = (file_status){.told = BASIC_STATUS, .links = 1, .mode = found.mode, .number = found.number,
                        .size = found.size};
    return answered(answer);
}

/* A host has no modes and owners that differ. */
int32_t port_fchmod(int32_t file, uint32_t mode) { return 0; }
int32_t port_fchown(int32_t file, uint32_t owner, uint32_t group) { return 0; }

int32_t port_ftruncate(int32_t file, int64_t size) {
    return size < 0 || size > UINT32_MAX ? failed(TOO_LARGE) : answered(host_cut(file, size));
}
int32_t port_rename(const char *from, const char *to) {
    return answered(host_rename(at(from), length_of(from), at(to), length_of(to)));
}
int32_t port_unlink(const char *path) { return answered(host_unlink(at(path), length_of(path))); }

/* No folder is listed: names are those of the page, or of DOS, which tells no cases apart. */
int32_t rattle_open_dir_at(int32_t folder, const char *path) { return failed(NO_CALL); }
ptrdiff_t port_getdents64(int32_t folder, void *to, size_t size) { return failed(NO_CALL); }

char *port_realpath(const char *path, char *to) {
    int32_t length = answered(host_resolve(at(path), length_of(path), at(to), PATH_BYTES - 1));
    if (length < 0) return NULL;
    to[length] = 0;
    return to;
}

size_t rattle_arg_count(void) { return host_arg_count(); }
ptrdiff_t rattle_arg(size_t i, uint8_t *to, size_t size) { return host_arg(i, at(to), within(size)); }
ptrdiff_t rattle_env(const char *name, uint8_t *to, size_t size) {
    return host_env(at(name), length_of(name), at(to), within(size));
}

#include "heap.h"

extern uint8_t __heap_base;

/* A refusal is -1, of which the lowering to a memory of 32 bits leaves the lower half. */
static int reach(uintptr_t to) {
    uintptr_t has = __builtin_wasm_memory_size(0) << 16;
    return to <= has || (uint32_t)__builtin_wasm_memory_grow(0, (to - has + 0xFFFF) >> 16) != UINT32_MAX;
}

/* What clang calls for numbers of 128 bits, of which WebAssembly has no product and no shift. */
typedef unsigned __int128 wide;
static wide pair(uint64_t low, uint64_t high) { return (wide)high << 64 | low; }

wide __multi3(wide a, wide b) {
    uint64_t x = a, y = b, low = (uint32_t)x * (uint64_t)(uint32_t)y;
    uint64_t one = (x >> 32) * (uint32_t)y + (low >> 32), other = (uint32_t)x * (y >> 32) + (uint32_t)one;
    uint64_t high = (x >> 32) * (y >> 32) + (one >> 32) + (other >> 32);
    return pair(other << 32 | (uint32_t)low, high + x * (uint64_t)(b >> 64) + (uint64_t)(a >> 64) * y);
}

wide __ashlti3(wide a, int32_t by) {
    uint64_t low = a, high = a >> 64;
    return by >= 64 ? pair(0, low << (by - 64)) : by ? pair(low << by, high << by | low >> (64 - by)) : a;
}

wide __lshrti3(wide a, int32_t by) {
    uint64_t low = a, high = a >> 64;
    return by >= 64 ? pair(high >> (by - 64), 0) : by ? pair(low >> by | high << (64 - by), high >> by) : a;
}

__attribute__((export_name("run"))) int32_t run(void) {
    end = ((uintptr_t)&__heap_base + 15) & ~(uintptr_t)15;
    return program();
}
