/* Runs the program whose path is this one's only word with the words `show` and half of a pair of UTF-16, which is no
   text, and ends with its status: for the tests of the port for Windows. */
typedef void *handle;
typedef unsigned short unit;
#define FROM_DLL(type) __declspec(dllimport) type

/* STARTUPINFOW and PROCESS_INFORMATION */
typedef struct {
    unsigned size, unused[25];
} start;
typedef struct {
    handle process, thread;
    unsigned numbers[2];
} started;

FROM_DLL(unit *) GetCommandLineW(void);
FROM_DLL(int) CreateProcessW(
    const unit *, unit *, void *, void *, int inherits, unsigned, void *, const unit *, start *, started *);
FROM_DLL(unsigned) WaitForSingleObject(handle, unsigned);
FROM_DLL(int) GetExitCodeProcess(handle, unsigned *);
FROM_DLL(void) ExitProcess(unsigned);

void begin(void) {
    static const unit more[] = {' ', 's', 'h', 'o', 'w', ' ', 'a', 0xD800, 'b', 0};
    static unit line[1000];
    static start how = {.size = sizeof how};
    static started made;
    unsigned status = 99, length = 0;
    const unit *from = GetCommandLineW();
    for (int quoted = 0; *from && (quoted || *from != ' '); from++) quoted ^= *from == '"';
    while (*from == ' ') from++;
    for (; *from && length < 900; from++) line[length++] = *from;
    for (unsigned i = 0; i < sizeof more / sizeof *more; i++) line[length + i] = more[i];
    if (CreateProcessW(0, line, 0, 0, 1, 0, 0, 0, &how, &made)) {
        WaitForSingleObject(made.process, ~0u);
        GetExitCodeProcess(made.process, &status);
    }
    ExitProcess(status);
}
