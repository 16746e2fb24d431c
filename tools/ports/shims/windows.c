/* Windows on x86-64, by kernel32 and msvcrt, which each Windows from Vista on has. What is used of them is declared
   here, so that no headers are needed. Texts are UTF-8 on the program's side and UTF-16 on the side of Windows. */
#include "common.h"

typedef void *handle;
typedef uint16_t unit;
#define FROM_DLL(type) __declspec(dllimport) type

/* BY_HANDLE_FILE_INFORMATION */
typedef struct {
    uint32_t attributes, times[6], volume, size_high, size_low, links, number_high, number_low;
} information;

FROM_DLL(handle) CreateFileW(const unit *, uint32_t access, uint32_t shared, void *, uint32_t how, uint32_t, handle);
FROM_DLL(int32_t) ReadFile(handle, void *, uint32_t, uint32_t *, void *);
FROM_DLL(int32_t) WriteFile(handle, const void *, uint32_t, uint32_t *, void *);
FROM_DLL(int32_t) CloseHandle(handle);
FROM_DLL(handle) GetStdHandle(uint32_t);
FROM_DLL(uint32_t) GetLastError(void);
FROM_DLL(void) SetLastError(uint32_t);
FROM_DLL(uint32_t) GetFileType(handle);
FROM_DLL(uint32_t) GetFileAttributesW(const unit *);
FROM_DLL(int32_t) GetFileInformationByHandle(handle, information *);
FROM_DLL(int32_t) SetFilePointerEx(handle, int64_t to, int64_t *was, uint32_t from);
FROM_DLL(int32_t) SetEndOfFile(handle);
FROM_DLL(int32_t) MoveFileExW(const unit *, const unit *, uint32_t);
FROM_DLL(int32_t) ReplaceFileW(const unit *older, const unit *with, const unit *aside, uint32_t, void *, void *);
FROM_DLL(int32_t) DeleteFileW(const unit *);
FROM_DLL(uint32_t) GetFinalPathNameByHandleW(handle, unit *, uint32_t, uint32_t);
FROM_DLL(int32_t) MultiByteToWideChar(uint32_t page, uint32_t, const char *, int32_t, unit *, int32_t);
FROM_DLL(int32_t) WideCharToMultiByte(uint32_t page, uint32_t, const unit *, int32_t, char *, int32_t, void *, void *);
FROM_DLL(uint32_t) GetEnvironmentVariableW(const unit *, unit *, uint32_t);
FROM_DLL(uint32_t) GetConsoleOutputCP(void);
FROM_DLL(int32_t) SetConsoleOutputCP(uint32_t);
FROM_DLL(void) ExitProcess(uint32_t);
FROM_DLL(int32_t) __wgetmainargs(int32_t *, unit ***, unit ***, int32_t expands, int32_t *);
FROM_DLL(void *) VirtualAlloc(void *, size_t, uint32_t what, uint32_t access);

enum { UTF8 = 65001, STRICT_TO_UTF16 = 8, STRICT_TO_UTF8 = 0x80 };
enum { NO_ATTRIBUTES = 0xFFFFFFFF, IS_READ_ONLY = 1, HAS_FILES = 0x10, IS_POINT = 0x400 };
enum { OPENS_FOLDERS = 0x02000000, OPENS_POINTS = 0x00200000, FOR_ALL = 7, PLAIN = 0x80, AS_IT_IS = 3 };
enum { DISK = 1, CHARACTERS = 2, PIPE = 3 };
enum { HAVE = 0x1000, KEEP = 0x2000, TO_READ_AND_WRITE = 4 };
#define NO_HANDLE ((handle)-1)

#include "heap.h"

/* Up to where the heap has memory, and up to where addresses are kept for it. */
static uintptr_t has, kept;

static int reach(uintptr_t to) {
    enum { STEP = 1 << 20 };
    if (to <= has) return 1;
    if (to > kept) return 0;
    size_t more = (to - has + STEP - 1) & -(size_t)STEP;
    if (!VirtualAlloc((void *)has, more, HAVE, TO_READ_AND_WRITE)) return 0;
    has += more;
    return 1;
}

/* Keeps as many addresses for the heap as can be had, at most 16 GB, none of which has memory yet. Where none can be
   had, memory is refused. */
static void keep_addresses(void) {
    for (size_t size = (size_t)1 << 34; !end && size >= 1 << 28; size /= 2) {
        end = has = (uintptr_t)VirtualAlloc(NULL, size, KEEP, TO_READ_AND_WRITE);
        kept = end ? end + size : 0;
    }
}

/* Keeps the error of Linux for the last one of Windows, and answers that there is one. */
static int32_t failed_in_windows(void) {
    switch (GetLastError()) {
    case 2: case 3: case 15: case 21: case 53: case 123: case 161: return failed(NOT_THERE);
    case 4: return failed(TOO_MANY_OPEN);
    case 5: case 32: case 33: case 1224: return failed(NO_ACCESS);
    case 6: return failed(NOT_OPEN);
    case 8: case 14: return failed(NO_MEMORY);
    case 17: return failed(OTHER_DEVICE);
    case 19: return failed(READ_ONLY);
    case 39: case 112: return failed(NO_SPACE);
    case 80: case 183: return failed(IS_THERE);
    case 109: case 232: return failed(NO_READER);
    case 206: return failed(TOO_LONG);
    case 267: return failed(NO_FOLDER);
    default: return failed(IO_FAILED);
    }
}

/* The text in UTF-16, in memory of its own, or NULL, with the error kept. */
static unit *wide(const char *text) {
    int32_t length = MultiByteToWideChar(UTF8, STRICT_TO_UTF16, text, -1, NULL, 0);
    unit *to = length ? malloc(length * sizeof *to) : NULL;
    if (!to) {
        failed(length ? NO_MEMORY : NOT_THERE);
        return NULL;
    }
    MultiByteToWideChar(UTF8, STRICT_TO_UTF16, text, -1, to, length);
    return to;
}

/* The text in UTF-8, in memory of its own. What isn't one becomes a byte that isn't one either. */
static char *narrow(const unit *text) {
    int32_t length = WideCharToMultiByte(UTF8, STRICT_TO_UTF8, text, -1, NULL, 0, NULL, NULL);
    char *to = malloc(length + 2);
    if (!to) ExitProcess(3);
    to[0] = (char)0xFF;
    to[1] = 0;
    WideCharToMultiByte(UTF8, STRICT_TO_UTF8, text, -1, to, length, NULL, NULL);
    return to;
}

/* The handles of the files that are open, each at its number; the three streams are 0, 1 and 2. */
enum { STREAMS = 3, MOST_FILES = 8192 };
static handle files[MOST_FILES];

static handle handle_of(int32_t file) { return file < STREAMS ? GetStdHandle(-10 - file) : files[file]; }

/* The number of a file that was opened, or -1, with the error kept. */
static int32_t number_of(handle file) {
    if (file == NO_HANDLE) return -1;
    for (int32_t number = STREAMS; number < MOST_FILES; number++) {
        if (files[number]) continue;
        files[number] = file;
        return number;
    }
    CloseHandle(file);
    return failed(TOO_MANY_OPEN);
}

/* Whether two texts are the same. */
static int is_same(const char *one, const char *other) {
    while (*one && *one == *other) one++, other++;
    return *one == *other;
}

/* The handle of what a path leads to, with this access, or NO_HANDLE with the error kept. */
static handle opened(const char *path, uint32_t access, uint32_t making, uint32_t flags) {
    unit *name = wide(path);
    if (!name) return NO_HANDLE;
    handle file = CreateFileW(name, access, FOR_ALL, NULL, making, flags, NULL);
    if (file == NO_HANDLE) {
        failed_in_windows();
        uint32_t found = error == NO_ACCESS ? GetFileAttributesW(name) : NO_ATTRIBUTES;
        if (found != NO_ATTRIBUTES && found & HAS_FILES) failed(IS_FOLDER);
    }
    free(name);
    return file;
}

int32_t port_open(const char *path, int32_t flags, ...) {
    enum { READS = 0x80000000, WRITES = 0x40000000, APPENDS = 4 };
    uint32_t access = flags & TO_UPDATE ? READS | WRITES : flags & TO_WRITE ? WRITES : READS;
    if (flags & AT_END) access = (access & READS) | APPENDS;
    uint32_t making = flags & MUST_MAKE ? 1 : flags & MAY_MAKE ? (flags & TO_EMPTY ? 2 : 4) : flags & TO_EMPTY ? 5 : 3;
    return number_of(opened(path, access, making, PLAIN));
}

static uint32_t some(size_t size) { return size < 1 << 30 ? size : 1 << 30; }

ptrdiff_t port_read(int32_t file, void *to, size_t size) {
    uint32_t count = 0;
    if (ReadFile(handle_of(file), to, some(size), &count, NULL)) return count;
    return GetLastError() == 109 ? 0 : failed_in_windows(); /* the pipe's writer has ended */
}

ptrdiff_t port_write(int32_t file, const void *from, size_t size) {
    uint32_t count = 0;
    return WriteFile(handle_of(file), from, some(size), &count, NULL) ? (ptrdiff_t)count : failed_in_windows();
}

int32_t port_close(int32_t file) {
    handle it = handle_of(file);
    if (file >= STREAMS) files[file] = NULL;
    return CloseHandle(it) ? 0 : failed_in_windows();
}

/* The status of what a handle is of. Windows has no owners' numbers, and of modes only that a file may be written. */
static int32_t status_of(handle file, file_status *to) {
    information got;
    *to = (file_status){.told = BASIC_STATUS, .links = 1};
    switch (GetFileType(file)) {
    case DISK: break;
    case CHARACTERS: to->mode = IS_DEVICE | 0666; return 0;
    case PIPE: to->mode = IS_PIPE | 0666; return 0;
    default: return failed(NOT_OPEN);
    }
    if (!GetFileInformationByHandle(file, &got)) return failed_in_windows();
    to->mode = got.attributes & HAS_FILES ? IS_DIRECTORY | 0777
               : got.attributes & IS_READ_ONLY ? IS_REGULAR | 0444 : IS_REGULAR | 0666;
    to->links = got.links;
    to->number = (uint64_t)got.number_high << 32 | got.number_low;
    to->size = (uint64_t)got.size_high << 32 | got.size_low;
    to->device_minor = got.volume;
    return 0;
}

int32_t port_statx(int32_t folder, const char *path, int32_t flags, uint32_t asked, file_status *to) {
    if (flags & OF_OPEN_FILE) return status_of(handle_of(folder), to);
    if (is_same(path, "/dev/stdin")) return status_of(handle_of(0), to);
    handle file = opened(path, 0, AS_IT_IS, OPENS_FOLDERS | (flags & OF_LINK ? OPENS_POINTS : 0));
    if (file == NO_HANDLE) return -1;
    int32_t answer = status_of(file, to);
    information got;
    if (!answer && flags & OF_LINK && GetFileInformationByHandle(file, &got) && got.attributes & IS_POINT)
        to->mode = IS_LINK | 0777;
    CloseHandle(file);
    return answer;
}

/* Modes and owners are those that each file has: see status_of. */
int32_t port_fchmod(int32_t file, uint32_t mode) { return 0; }
int32_t port_fchown(int32_t file, uint32_t owner, uint32_t group) { return 0; }

int32_t port_ftruncate(int32_t file, int64_t size) {
    int64_t place = 0;
    handle it = handle_of(file);
    int is_done = SetFilePointerEx(it, 0, &place, 1) && SetFilePointerEx(it, size, NULL, 0) && SetEndOfFile(it)
                  && SetFilePointerEx(it, place, NULL, 0);
    return is_done ? 0 : failed_in_windows();
}

enum { REPLACES = 1, MAY_COPY = 2 };

/* Replaces a file that is open, which MoveFileExW doesn't: Windows gives the older one another name of its own choice,
   and takes that away. Where it did so and then could not go on, the new one is moved to where nothing stands. One that
   may only be read isn't replaced. */
static int replace_open(const unit *old, const unit *new) {
    enum { WHATEVER_IS_KEPT = 2, FIRST_HALF = 1176, FIRST_HALF_KEPT = 1177 };
    if (ReplaceFileW(new, old, NULL, WHATEVER_IS_KEPT, NULL, NULL)) return 1;
    uint32_t got = GetLastError();
    return (got == FIRST_HALF || got == FIRST_HALF_KEPT) && MoveFileExW(old, new, 0);
}

/* Where the new name is on another drive the file is copied there, which isn't whole at once. */
int32_t port_rename(const char *from, const char *to) {
    unit *old = wide(from), *new = wide(to);
    int is_done = old && new && MoveFileExW(old, new, REPLACES | MAY_COPY);
    if (old && new && !is_done) {
        failed_in_windows();
        is_done = error == NO_ACCESS && replace_open(old, new);
    }
    free(old);
    free(new);
    return is_done ? 0 : -1;
}

int32_t port_unlink(const char *path) {
    unit *name = wide(path);
    int is_done = name && DeleteFileW(name);
    if (name && !is_done) failed_in_windows();
    free(name);
    return is_done ? 0 : -1;
}

/* No folder is listed: names tell no cases apart, and what stands at a path is found however it is spelled. */
int32_t rattle_open_dir_at(int32_t folder, const char *path) { return failed(NO_CALL); }
ptrdiff_t port_getdents64(int32_t folder, void *to, size_t size) { return failed(NO_CALL); }

/* What Windows answers begins with \\?\ or, for a folder of the network, with \\?\UNC\, which are left out. */
char *port_realpath(const char *path, char *to) {
    static unit found[PATH_BYTES];
    handle file = opened(path, 0, AS_IT_IS, OPENS_FOLDERS);
    if (file == NO_HANDLE) return NULL;
    uint32_t length = GetFinalPathNameByHandleW(file, found, PATH_BYTES, 0);
    if (length == 0) failed_in_windows();
    CloseHandle(file);
    if (length >= PATH_BYTES) failed(TOO_LONG);
    if (length == 0 || length >= PATH_BYTES) return NULL;
    unit *from = found;
    if (length > 8 && found[2] == '?' && found[4] == 'U' && found[7] == '\\') from += 6, *from = '\\';
    else if (length > 4 && found[2] == '?') from += 4;
    for (unit *each = from; *each; each++)
        if (*each == '\\') *each = '/';
    if (WideCharToMultiByte(UTF8, STRICT_TO_UTF8, from, -1, to, PATH_BYTES, NULL, NULL)) return to;
    failed(TOO_LONG);
    return NULL;
}

ptrdiff_t rattle_env(const char *name, uint8_t *to, size_t size) {
    static unit value[32768]; /* the most that there may be */
    unit *wide_name = wide(name);
    if (!wide_name) return -1;
    value[0] = 0;
    SetLastError(0);
    uint32_t length = GetEnvironmentVariableW(wide_name, value, 32768);
    int is_there = length || GetLastError() == 0;
    free(wide_name);
    if (!is_there) return -1;
    char *text = narrow(value);
    ptrdiff_t answer = put(text, to, size);
    free(text);
    return answer;
}

/* Called where a function's locals are large, with their size in rax: Windows gives the stack page by page. */
__asm__(".globl ___chkstk_ms\n___chkstk_ms: push %rcx\n push %rax\n lea 24(%rsp), %rcx\n"
        "1: cmp $4096, %rax\n jb 2f\n sub $4096, %rcx\n orl $0, (%rcx)\n sub $4096, %rax\n jmp 1b\n"
        "2: sub %rax, %rcx\n orl $0, (%rcx)\n pop %rax\n pop %rcx\n ret");

/* The program's start. A word as *.OBJ becomes the files that it means, since no shell does that. */
void begin(void) {
    int32_t count = 0, new_mode = 0;
    unit **words = NULL, **environment;
    keep_addresses();
    __wgetmainargs(&count, &words, &environment, 1, &new_mode);
    args = malloc(count * sizeof *args);
    if (!args) ExitProcess(3);
    for (; arg_count < (size_t)count; arg_count++) args[arg_count] = narrow(words[arg_count]);
    uint32_t shown = GetConsoleOutputCP();
    SetConsoleOutputCP(UTF8);
    int32_t status = program();
    SetConsoleOutputCP(shown);
    ExitProcess(status);
}
