/* What the program calls of a system, on Windows: arguments, files, the three streams and the numbers of errors.

   The program knows the calls and the numbers of errors of Linux; each call here has the name that tools/windows gives it and answers
   with those numbers. Names and arguments are UTF-8 inside and UTF-16 outside, streams are bytes. */
#include <windows.h>

#include <cpuid.h>
#include <stdint.h>
#include <stdlib.h>
#include <string.h>
#include <wchar.h>

int rattle_main(void);

/* --- errors, by their numbers on Linux */

enum { NONE = 0, NO_FILE = 2, IO = 5, BAD_FILE = 9, NO_MEMORY = 12, NO_ACCESS = 13, BUSY = 16, NO_FOLDER = 20, FOLDER = 21, INVALID = 22, MANY_FILES = 24, NO_SPACE = 28, NO_READER = 32, LONG_NAME = 36 };

static const struct {
    DWORD windows;
    int number;
} NUMBERS[] = {
    {ERROR_FILE_NOT_FOUND, NO_FILE}, {ERROR_PATH_NOT_FOUND, NO_FILE}, {ERROR_INVALID_NAME, NO_FILE},
    {ERROR_BAD_PATHNAME, NO_FILE}, {ERROR_INVALID_DRIVE, NO_FILE}, {ERROR_BAD_NETPATH, NO_FILE},
    {ERROR_BAD_NET_NAME, NO_FILE}, {ERROR_DIRECTORY, NO_FOLDER}, {ERROR_ACCESS_DENIED, NO_ACCESS},
    {ERROR_SHARING_VIOLATION, BUSY}, {ERROR_LOCK_VIOLATION, BUSY}, {ERROR_INVALID_HANDLE, BAD_FILE},
    {ERROR_NOT_ENOUGH_MEMORY, NO_MEMORY}, {ERROR_OUTOFMEMORY, NO_MEMORY}, {ERROR_TOO_MANY_OPEN_FILES, MANY_FILES},
    {ERROR_DISK_FULL, NO_SPACE}, {ERROR_HANDLE_DISK_FULL, NO_SPACE}, {ERROR_BROKEN_PIPE, NO_READER},
    {ERROR_NO_DATA, NO_READER}, {ERROR_FILENAME_EXCED_RANGE, LONG_NAME},
};

static const struct {
    int number;
    const char *text;
} TEXTS[] = {
    {NO_FILE, "No such file or directory"}, {BAD_FILE, "Bad file descriptor"}, {NO_MEMORY, "Cannot allocate memory"},
    {NO_ACCESS, "Permission denied"}, {BUSY, "Device or resource busy"}, {NO_FOLDER, "Not a directory"},
    {FOLDER, "Is a directory"}, {INVALID, "Invalid argument"}, {MANY_FILES, "Too many open files"},
    {NO_SPACE, "No space left on device"}, {NO_READER, "Broken pipe"}, {LONG_NAME, "File name too long"},
};

static int last_error;

static int number_of(DWORD windows)
{
    for (size_t at = 0; at < sizeof NUMBERS / sizeof *NUMBERS; at++)
        if (NUMBERS[at].windows == windows)
            return NUMBERS[at].number;
    return IO;
}

static int failed(int number)
{
    last_error = number;
    return -1;
}

int rattle_errno(void)
{
    return last_error;
}

void rattle_set_errno(int number)
{
    last_error = number;
}

/* The text of a number, cut where the buffer ends. */
int host_error_text(int number, char *buffer, uint64_t length)
{
    const char *text = "Input/output error";
    for (size_t at = 0; at < sizeof TEXTS / sizeof *TEXTS; at++)
        if (TEXTS[at].number == number)
            text = TEXTS[at].text;
    if (length > 0) {
        uint64_t count = strlen(text) < length ? strlen(text) : length - 1;
        memcpy(buffer, text, count);
        buffer[count] = 0;
    }
    return 0;
}

/* --- arguments and the environment */

static int argument_count;
static wchar_t **arguments;

/* Puts a text as UTF-8: the number of bytes, or -2 if they don't fit. */
static int64_t put_text(const wchar_t *text, char *buffer, uint64_t length)
{
    int wide = (int)wcslen(text);
    if (wide == 0)
        return 0;
    int count = WideCharToMultiByte(CP_UTF8, 0, text, wide, NULL, 0, NULL, NULL);
    if ((uint64_t)count > length)
        return -2;
    return WideCharToMultiByte(CP_UTF8, 0, text, wide, buffer, count, NULL, NULL);
}

/* The name of the program as it is typed: without its folder and without .exe. */
static void name_program(wchar_t *path)
{
    wchar_t *name = path;
    for (wchar_t *at = path; *at; at++)
        if (*at == L'\\' || *at == L'/')
            name = at + 1;
    size_t length = wcslen(name);
    if (length > 4 && !_wcsicmp(name + length - 4, L".exe"))
        name[length - 4] = 0;
    arguments[0] = name;
}

int64_t rattle_arg(uint64_t at, char *buffer, uint64_t length)
{
    return at < (uint64_t)argument_count ? put_text(arguments[at], buffer, length) : -1;
}

/* The program reads no variable that Windows has: there is none. */
int64_t rattle_env(const char *name, char *buffer, uint64_t length)
{
    (void)name, (void)buffer, (void)length;
    return -1;
}

int64_t rattle_env_at(uint64_t at, char *buffer, uint64_t length)
{
    (void)at, (void)buffer, (void)length;
    return -1;
}

/* --- files */

/* Windows takes longer paths only with these before them, and absolute. */
#define LONG_PATH L"\\\\?\\"
#define LONG_SHARE L"\\\\?\\UNC\\"

/* A path in UTF-16; NULL if it is none. The caller frees it. */
static wchar_t *wide_path(const char *path)
{
    int count = MultiByteToWideChar(CP_UTF8, MB_ERR_INVALID_CHARS, path, -1, NULL, 0);
    wchar_t *wide = count > 0 ? malloc(count * sizeof *wide) : NULL;
    if (wide)
        MultiByteToWideChar(CP_UTF8, MB_ERR_INVALID_CHARS, path, -1, wide, count);
    return wide;
}

/* A path of any length as Windows takes it. It frees the one that it is given. */
static wchar_t *long_path(wchar_t *path)
{
    if (!path || wcslen(path) < MAX_PATH - 12 || !wcsncmp(path, L"\\\\?\\", 4))
        return path;
    DWORD count = GetFullPathNameW(path, 0, NULL, NULL);
    wchar_t *whole = malloc((count + 9) * sizeof *whole);
    if (whole) {
        wchar_t *full = whole + 8;
        GetFullPathNameW(path, count, full, NULL);
        /* \\server\share becomes \\?\UNC\server\share */
        int is_share = !wcsncmp(full, L"\\\\", 2);
        const wchar_t *before = is_share ? LONG_SHARE : LONG_PATH;
        size_t begin = is_share ? 2 : 0, length = wcslen(before);
        memmove(whole + length, full + begin, (wcslen(full + begin) + 1) * sizeof *whole);
        memcpy(whole, before, length * sizeof *whole);
    }
    free(path);
    return whole;
}

/* the files that are open, by their numbers; the first three are the streams */
#define MOST_FILES 64
static HANDLE files[MOST_FILES];

static HANDLE file_of(int file)
{
    HANDLE found = file >= 0 && file < MOST_FILES ? files[file] : NULL;
    return found == INVALID_HANDLE_VALUE ? NULL : found;
}

static int is_folder(const wchar_t *path)
{
    DWORD found = GetFileAttributesW(path);
    return found != INVALID_FILE_ATTRIBUTES && (found & FILE_ATTRIBUTE_DIRECTORY);
}

/* Opens a file for reading: the program writes none. */
int host_open(const char *path, int how)
{
    int file = 3;
    (void)how;
    while (file < MOST_FILES && files[file])
        file++;
    if (file == MOST_FILES)
        return failed(MANY_FILES);
    wchar_t *wide = long_path(wide_path(path));
    if (!wide)
        return failed(NO_FILE);
    HANDLE opened = CreateFileW(wide, GENERIC_READ, FILE_SHARE_READ | FILE_SHARE_WRITE | FILE_SHARE_DELETE, NULL, OPEN_EXISTING, FILE_ATTRIBUTE_NORMAL, NULL);
    int number = opened != INVALID_HANDLE_VALUE ? NONE : is_folder(wide) ? FOLDER : number_of(GetLastError());
    free(wide);
    if (number)
        return failed(number);
    files[file] = opened;
    return file;
}

int host_close(int file)
{
    HANDLE found = file_of(file);
    if (!found)
        return failed(BAD_FILE);
    files[file] = NULL;
    return CloseHandle(found) ? 0 : failed(number_of(GetLastError()));
}

/* the most bytes of one call */
#define MOST_BYTES 0x100000

int64_t host_read(int file, void *buffer, uint64_t length)
{
    HANDLE found = file_of(file);
    DWORD count = 0;
    if (!found)
        return failed(BAD_FILE);
    if (ReadFile(found, buffer, length < MOST_BYTES ? (DWORD)length : MOST_BYTES, &count, NULL))
        return count;
    /* nobody writes into the pipe any more: that is its end */
    DWORD windows = GetLastError();
    return windows == ERROR_BROKEN_PIPE || windows == ERROR_HANDLE_EOF ? 0 : failed(number_of(windows));
}

int64_t host_write(int file, const void *buffer, uint64_t length)
{
    HANDLE found = file_of(file);
    DWORD count = 0;
    if (!found)
        return failed(BAD_FILE);
    if (length == 0)
        return 0;
    if (!WriteFile(found, buffer, length < MOST_BYTES ? (DWORD)length : MOST_BYTES, &count, NULL))
        return failed(number_of(GetLastError()));
    /* a pipe that does not wait takes nothing if it is full */
    return count ? (int64_t)count : failed(NO_SPACE);
}

/* the name by which the start of the program calls it */
int64_t host_write_there(int file, const void *buffer, uint64_t length)
{
    return host_write(file, buffer, length);
}

int host_isatty(int file)
{
    HANDLE found = file_of(file);
    DWORD mode;
    return found && GetConsoleMode(found, &mode);
}

/* what is asked of a file: whether it is a folder. The place of the mode is that of `struct statx` of Linux. */
struct about_file {
    uint8_t before[28];
    uint16_t mode;
    uint8_t after[226];
};

int host_about(int folder, const char *path, int how, int wanted, struct about_file *about)
{
    (void)folder, (void)how, (void)wanted;
    wchar_t *wide = long_path(wide_path(path));
    if (!wide)
        return failed(NO_FILE);
    DWORD found = GetFileAttributesW(wide);
    int number = found != INVALID_FILE_ATTRIBUTES ? NONE : number_of(GetLastError());
    free(wide);
    if (number)
        return failed(number);
    memset(about, 0, sizeof *about);
    about->mode = found & FILE_ATTRIBUTE_DIRECTORY ? 0x4000 : 0x8000;
    return 0;
}

/* Windows has no signal for a pipe that nobody reads: the write fails. */
int64_t host_signal(int number, int64_t action)
{
    (void)number, (void)action;
    return 0;
}

/* What the processor can do, as the start of the program asks for it: by the C library's numbers of these leaves. */
struct features {
    uint32_t there[4];
    uint32_t active[4];
};

const struct features *host_features(uint32_t number)
{
    static const uint32_t LEAVES[] = {1, 7, 0x80000001};
    static struct features found[4];
    if (number >= 3)
        return &found[3];
    uint32_t *there = found[number].there;
    if (__get_cpuid_count(LEAVES[number], 0, &there[0], &there[1], &there[2], &there[3]))
        memcpy(found[number].active, there, sizeof found[number].active);
    return &found[number];
}

/* --- the start */

int wmain(int count, wchar_t **words)
{
    static const DWORD STREAMS[3] = {STD_INPUT_HANDLE, STD_OUTPUT_HANDLE, STD_ERROR_HANDLE};
    argument_count = count;
    arguments = words;
    if (count > 0)
        name_program(words[0]);
    for (int file = 0; file < 3; file++)
        files[file] = GetStdHandle(STREAMS[file]);
    /* a console shows bytes by its code page, which it keeps after the program has ended */
    UINT page = GetConsoleOutputCP();
    SetConsoleOutputCP(CP_UTF8);
    int status = rattle_main();
    if (page)
        SetConsoleOutputCP(page);
    return status;
}
