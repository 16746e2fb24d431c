/* A small Windows on Linux, in which the shim for Windows is tested: what Windows documents of its functions, over
   files that are held here, where what can't be had of wine can be chosen. Names are ASCII, and all in one folder. */
#include <stdio.h>
#include <stdlib.h>
#include <string.h>
#include <sys/mman.h>
#include <unistd.h>

/* the shim's own, which are others than those of the C library */
#define malloc port_malloc
#define free port_free
#define realloc port_realloc
#define __declspec(words)
#include "windows.c"
#undef malloc
#undef free
#undef realloc

/* What is chosen: where handles begin; the most bytes that a write takes; what a read or a replacement answers in the
   place of what it does, where it isn't 0; how many bytes of addresses, and of memory, there are. */
static uint32_t first_handle = 0x54;
static uint32_t most_written = UINT32_MAX, read_answers, replacement_answers;
static size_t most_kept = -1, memory_left = -1;

/* A file, of which an older one may be open yet when a newer one has its name. */
typedef struct {
    char name[40], bytes[100];
    uint32_t size, attributes, opened;
} entry;
static entry entries[50];
static struct {
    entry *of;
    uint32_t place;
} handles[9000];
#define COUNT_OF(array) (sizeof array / sizeof *array)

static uint32_t last_error;
uint32_t GetLastError(void) { return last_error; }
void SetLastError(uint32_t number) { last_error = number; }

/* Keeps an error, unless it is 0, and answers whether there is none. */
static int32_t ends(uint32_t number) {
    if (number) last_error = number;
    return !number;
}

static entry *named(const char *name) {
    for (size_t i = 0; i < COUNT_OF(entries); i++)
        if (*name && !strcmp(entries[i].name, name)) return entries + i;
    return NULL;
}

/* What stands at a path of UTF-16, or NULL. */
static entry *at(const unit *path) {
    char name[40] = {0};
    for (int i = 0; path[i]; i++) name[i] = path[i];
    return named(name);
}

/* A new file at a path. */
static entry *made_at(const unit *path) {
    entry *it = entries;
    while (*it->name || it->opened) it++;
    *it = (entry){0};
    for (int i = 0; path[i]; i++) it->name[i] = path[i];
    return it;
}

/* The handle that is the i-th: 32 bits of it say which one it is, and their sign fills the others. */
static handle handle_at(size_t i) { return (handle)(intptr_t)(int32_t)(first_handle + 4 * i); }

/* Which one an open file's handle is, or -1 where it is none, in any of its 64 bits. */
static int place_of(handle file) {
    size_t i = ((uint32_t)(uintptr_t)file - first_handle) / 4;
    if (i < COUNT_OF(handles) && handles[i].of && file == handle_at(i)) return i;
    ends(6);
    return -1;
}

handle CreateFileW(const unit *path, uint32_t access, uint32_t shared, void *safe, uint32_t how, uint32_t flags,
                   handle like) {
    enum { NEW = 1, NEW_OR_EMPTY = 2, AS_IT_STANDS = 3, EMPTY = 5, WRITES = 0x40000000 };
    entry *it = at(path);
    uint32_t fault = !it && (how == AS_IT_STANDS || how == EMPTY) ? 2 : it && how == NEW ? 80
                     : it && it->attributes & IS_READ_ONLY && access & WRITES ? 5 : 0;
    int i = 0;
    while (handles[i].of) i++;
    if (!ends(fault)) return NO_HANDLE;
    if (!it) it = made_at(path);
    if (how == NEW_OR_EMPTY || how == EMPTY) it->size = 0;
    handles[i].of = it, handles[i].place = 0, it->opened++;
    return handle_at(i);
}

int32_t CloseHandle(handle file) {
    int i = place_of(file);
    if (i < 0) return 0;
    handles[i].of->opened--, handles[i].of = NULL;
    return 1;
}

int32_t ReadFile(handle file, void *to, uint32_t size, uint32_t *count, void *unused) {
    int i = place_of(file);
    if (i < 0 || !ends(read_answers)) return 0;
    uint32_t left = handles[i].of->size - handles[i].place;
    *count = size < left ? size : left;
    memcpy(to, handles[i].of->bytes + handles[i].place, *count);
    handles[i].place += *count;
    return 1;
}

int32_t WriteFile(handle file, const void *from, uint32_t size, uint32_t *count, void *unused) {
    if (file == GetStdHandle(-11)) return (*count = write(1, from, size)) == size;
    int i = place_of(file);
    if (i < 0) return 0;
    *count = size < most_written ? size : most_written;
    memcpy(handles[i].of->bytes + handles[i].place, from, *count);
    handles[i].place += *count;
    if (handles[i].of->size < handles[i].place) handles[i].of->size = handles[i].place;
    return 1;
}

handle GetStdHandle(uint32_t number) { return (handle)(uintptr_t)(-9 - number); }
uint32_t GetFileType(handle file) { return place_of(file) < 0 ? 0 : DISK; }
uint32_t GetFileAttributesW(const unit *path) { return at(path) ? at(path)->attributes : NO_ATTRIBUTES; }
int32_t SetEndOfFile(handle file) { return ends(50); }
int32_t SetFilePointerEx(handle file, int64_t to, int64_t *was, uint32_t from) { return ends(50); }

int32_t GetFileInformationByHandle(handle file, information *to) {
    int i = place_of(file);
    if (i < 0) return 0;
    *to = (information){.attributes = handles[i].of->attributes, .links = 1, .size_low = handles[i].of->size};
    return 1;
}

uint32_t GetFinalPathNameByHandleW(handle file, unit *to, uint32_t size, uint32_t flags) {
    char path[50] = "\\\\?\\";
    int i = place_of(file);
    if (i < 0) return 0;
    strcat(path, handles[i].of->name);
    for (size_t k = 0; k <= strlen(path); k++) to[k] = path[k];
    return strlen(path);
}

/* A file that is open, or that may only be read, isn't replaced. */
int32_t MoveFileExW(const unit *from, const unit *to, uint32_t flags) {
    entry *it = at(from), *there = at(to);
    if (!it) return ends(2);
    if (there && !(flags & REPLACES)) return ends(183);
    if (there && (there->opened || there->attributes & IS_READ_ONLY)) return ends(5);
    if (there) *there->name = 0;
    *it->name = 0;
    for (int i = 0; i == 0 || to[i - 1]; i++) it->name[i] = to[i];
    return 1;
}

/* A file that is open is replaced, and one that may only be read isn't. The older one goes, or gets the name that is
   given. Where that ends half-way it has gone (1176), or has a name that isn't (1177). */
int32_t ReplaceFileW(const unit *older, const unit *with, const unit *aside, uint32_t flags, void *a, void *b) {
    entry *it = at(with), *there = at(older);
    if (!it || !there) return ends(2);
    if (there->attributes & IS_READ_ONLY) return ends(5);
    if (replacement_answers == 1176) *there->name = 0;
    if (replacement_answers == 1177) strcpy(there->name, "OTHER");
    if (replacement_answers) return ends(replacement_answers);
    if (aside && at(aside)) *at(aside)->name = 0;
    strcpy(it->name, there->name);
    for (int i = 0; i == 0 || aside && aside[i - 1]; i++) there->name[i] = aside ? aside[i] : 0;
    return 1;
}

/* One that is open goes once it is closed, and has its name until then; one that may only be read stays. */
int32_t DeleteFileW(const unit *path) {
    entry *it = at(path);
    if (!it || it->attributes & IS_READ_ONLY) return ends(it ? 5 : 2);
    if (!it->opened) *it->name = 0;
    return 1;
}

/* Addresses are kept without memory, and get it where there is some; it may also be had without a place, wherever it
   then is. */
void *VirtualAlloc(void *place, size_t size, uint32_t what, uint32_t access) {
    enum { NO_ACCESS_YET = 0, BOTH = 3, OWN_WITHOUT_FILE = 0x4022 };
    int is_kept = what == KEEP;
    if (is_kept ? size > most_kept : size > memory_left) return ends(8), NULL;
    if (!place) place = mmap(NULL, size, is_kept ? NO_ACCESS_YET : BOTH, OWN_WITHOUT_FILE, -1, 0);
    else if (mprotect(place, size, BOTH)) place = MAP_FAILED;
    if (place == MAP_FAILED) return ends(8), NULL;
    if (!is_kept) memory_left -= size;
    return place;
}

int32_t MultiByteToWideChar(uint32_t page, uint32_t flags, const char *from, int32_t size, unit *to, int32_t most) {
    int32_t length = strlen(from) + 1;
    for (int32_t i = 0; to && i < length; i++) to[i] = from[i];
    return length;
}
int32_t WideCharToMultiByte(uint32_t page, uint32_t flags, const unit *from, int32_t size, char *to, int32_t most,
                            void *a, void *b) {
    int32_t length = 0;
    while (from[length++]) continue;
    for (int32_t i = 0; to && i < length; i++) to[i] = from[i];
    return length;
}
uint32_t GetEnvironmentVariableW(const unit *name, unit *to, uint32_t most) { return ends(203); }
uint32_t GetConsoleOutputCP(void) { return 437; }
int32_t SetConsoleOutputCP(uint32_t page) { return 1; }
void ExitProcess(uint32_t status) { _exit(status); }
int32_t __wgetmainargs(int32_t *count, unit ***words, unit ***environment, int32_t expands, int32_t *mode) {
    static unit name[] = {'a', 0}, *names[] = {name, NULL};
    *count = 1, *words = names;
    return 0;
}
