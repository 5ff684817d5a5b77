/*
 * Loads a shared library or a program for macOS into a process on Linux, for tests, as far as those of this repository need it: its
 * segments, the addresses in them (LC_DYLD_INFO_ONLY, as linkers write them for macOS 11) and its constructors. The C library's functions
 * are those of Linux. It stands in for macOS' dyld, and shows nothing of that.
 *
 * With -DPROGRAM=FILE it runs that program. Else it loads the file that YUREWHA_DYLIB names before main, and fills in where each export is,
 * for the functions of these names that macos_test writes.
 */
#define _GNU_SOURCE
#include <errno.h>
#include <fcntl.h>
#include <signal.h>
#include <stdarg.h>
#include <stdint.h>
#include <stdio.h>
#include <stdlib.h>
#include <string.h>
#include <sys/mman.h>
#include <sys/stat.h>
#include <unistd.h>

/* Load commands of mach-o/loader.h, and kinds of sections. */
enum { SEGMENT_64 = 0x19, SYMTAB = 0x2, DYLD_INFO_ONLY = (int)0x80000022, MAIN = (int)0x80000028 };
enum { PAGE = 0x4000, MOST_SEGMENTS = 16, CONSTRUCTORS = 9 };

static struct segment {
    char name[17];
    uint64_t address, size, from, length;
    uint32_t permits;
} segments[MOST_SEGMENTS];
static unsigned count;
static uint8_t *file;
static uint64_t slide; /* how far from its addresses the file is loaded */
static uint64_t constructors, constructors_length, entry;

static void fail(const char *why, const char *what)
{
    dprintf(2, "bindings/macos/loader: %s %s\n", why, what);
    _exit(99);
}

/* What macOS' C library has under other names, or for its programs alone. */
static FILE *mac_stderr;
static int *mac_errno(void) { return &errno; }

/* Says of each feature that it is there, or what YUREWHA_SYSCTL says. */
static int mac_sysctl(const char *name, void *old, size_t *size, void *new, size_t length)
{
    const char *value = getenv("YUREWHA_SYSCTL");
    if (strncmp(name, "hw.optional.", 12) != 0 || *size != sizeof(int) || new != NULL || length != 0)
        return -1;
    *(int *)old = value != NULL ? atoi(value) : 1;
    return 0;
}

static const struct {
    const char *name;
    void *at;
} outside[] = {
    {"_malloc", malloc}, {"_realloc", realloc}, {"_free", free}, {"_memcpy", memcpy}, {"_memmove", memmove}, {"_memset", memset},
    {"_getenv", getenv}, {"_strcmp", strcmp}, {"_fprintf", fprintf}, {"___stderrp", &mac_stderr}, {"_sysctlbyname", mac_sysctl},
    {"_read", read}, {"_write", write}, {"_signal", signal}, {"___error", mac_errno}, {"dyld_stub_binder", abort},
};

static uint32_t word(uint64_t at)
{
    uint32_t found;
    memcpy(&found, file + at, sizeof found);
    return found;
}

static uint64_t address(uint64_t at)
{
    uint64_t found;
    memcpy(&found, file + at, sizeof found);
    return found;
}

/* A number in groups of seven bits, which is negative if the last one's highest bit says so and it has a sign. */
static uint64_t number(const uint8_t **at, int has_sign)
{
    uint64_t found = 0;
    unsigned bits = 0;
    uint8_t byte;
    do {
        byte = *(*at)++;
        found |= (uint64_t)(byte & 0x7F) << bits;
        bits += 7;
    } while (byte & 0x80);
    return has_sign && (byte & 0x40) && bits < 64 ? found | ~UINT64_C(0) << bits : found;
}

static uint8_t *place_in(unsigned segment, const uint8_t **at)
{
    return (uint8_t *)(segments[segment].address + slide + number(at, 0));
}

static uint8_t *add(uint8_t *at, uint64_t what)
{
    uint64_t old;
    memcpy(&old, at, sizeof old);
    old += what;
    memcpy(at, &old, sizeof old);
    return at + sizeof old;
}

/* Moves the addresses in the file by how far it is loaded from its place. */
static void rebase(const uint8_t *at, const uint8_t *end)
{
    uint8_t *to = NULL;
    while (at < end) {
        const unsigned what = *at & 0xF0, low = *at & 0xF;
        uint64_t times = 0, skipped = 0;
        at++;
        switch (what) {
        case 0x00: return;
        case 0x10: if (low != 1) fail("a rebase of kind", "other"); break;
        case 0x20: to = place_in(low, &at); break;
        case 0x30: to += number(&at, 0); break;
        case 0x40: to += 8 * low; break;
        case 0x50: times = low; break;
        case 0x60: times = number(&at, 0); break;
        case 0x70: times = 1; skipped = number(&at, 0); break;
        case 0x80: times = number(&at, 0); skipped = number(&at, 0); break;
        default: fail("a rebase that isn't", "known");
        }
        for (; times > 0; times--)
            to = add(to, slide) + skipped;
    }
}

static uint64_t outer(const char *name)
{
    for (size_t i = 0; i < sizeof outside / sizeof *outside; i++)
        if (strcmp(outside[i].name, name) == 0)
            return (uint64_t)outside[i].at;
    fail("there is no", name);
    return 0;
}

/* Fills in where the C library's functions are. */
static void bind(const uint8_t *at, const uint8_t *end, int is_lazy)
{
    uint8_t *to = NULL;
    const char *name = "";
    uint64_t added = 0;
    while (at < end) {
        const unsigned what = *at & 0xF0, low = *at & 0xF;
        uint64_t times = 0, skipped = 0;
        at++;
        switch (what) {
        case 0x00: if (!is_lazy) return; break;
        case 0x10: case 0x30: break; /* from which library */
        case 0x20: (void)number(&at, 0); break;
        case 0x40: name = (const char *)at; at += strlen(name) + 1; break;
        case 0x50: if (low != 1) fail("a bind of kind", "other"); break;
        case 0x60: added = number(&at, 1); break;
        case 0x70: to = place_in(low, &at); break;
        case 0x80: to += number(&at, 0); break;
        case 0x90: times = 1; break;
        case 0xA0: times = 1; skipped = number(&at, 0); break;
        case 0xB0: times = 1; skipped = 8 * low; break;
        case 0xC0: times = number(&at, 0); skipped = number(&at, 0); break;
        default: fail("a bind that isn't", "known");
        }
        for (; times > 0; times--) {
            memset(to, 0, 8);
            to = add(to, outer(name) + added) + skipped;
        }
    }
}

static void read_segment(uint64_t at)
{
    struct segment *it = &segments[count++];
    if (count == MOST_SEGMENTS)
        fail("there are too many", "segments");
    memcpy(it->name, file + at + 8, 16);
    it->address = address(at + 24);
    it->size = address(at + 32);
    it->from = address(at + 40);
    it->length = address(at + 48);
    it->permits = word(at + 60);
    for (uint64_t k = 0, section = at + 72; k < word(at + 64); k++, section += 80)
        if ((word(section + 64) & 0xFF) == CONSTRUCTORS) {
            constructors = address(section + 32);
            constructors_length = address(section + 40);
        }
}

static int is_loaded(const struct segment *it) { return strcmp(it->name, "__PAGEZERO") != 0; }

/* Copies the segments to new memory, wherever that is. */
static void load_segments(void)
{
    uint64_t low = UINT64_MAX, high = 0;
    for (unsigned i = 0; i < count; i++)
        if (is_loaded(&segments[i])) {
            const uint64_t end = segments[i].address + segments[i].size;
            low = segments[i].address < low ? segments[i].address : low;
            high = end > high ? end : high;
        }
    uint8_t *found = mmap(NULL, high - low + PAGE, PROT_READ | PROT_WRITE, MAP_PRIVATE | MAP_ANONYMOUS, -1, 0);
    if (found == MAP_FAILED)
        fail("there is no", "memory");
    slide = (((uint64_t)found + PAGE - 1) & ~(uint64_t)(PAGE - 1)) - low;
    for (unsigned i = 0; i < count; i++)
        if (is_loaded(&segments[i]))
            memcpy((void *)(segments[i].address + slide), file + segments[i].from, segments[i].length);
}

/* From now on each segment permits what it says, and constants may not be written. */
static void protect_segments(void)
{
    for (unsigned i = 0; i < count; i++)
        if (is_loaded(&segments[i])) {
            char *at = (char *)(segments[i].address + slide);
            const int can_write = (segments[i].permits & 2) && strcmp(segments[i].name, "__DATA_CONST") != 0;
            const int permits = (segments[i].permits & 1 ? PROT_READ : 0) | (can_write ? PROT_WRITE : 0) |
                                (segments[i].permits & 4 ? PROT_EXEC : 0);
            __builtin___clear_cache(at, at + segments[i].size);
            if (mprotect(at, segments[i].size, permits) != 0)
                fail("mprotect fails for", segments[i].name);
        }
}

#ifndef PROGRAM
/* The exports, and where each should be told. */
extern const struct export {
    const char *name;
    void **at;
} yurewha_exports[];

static void find_exports(uint64_t table)
{
    const uint64_t symbols = word(table + 8), texts = word(table + 16);
    for (const struct export *it = yurewha_exports; it->name != NULL; it++) {
        for (uint64_t k = 0; k < word(table + 12); k++) {
            const uint64_t at = symbols + 16 * k;
            const int is_shown = (file[at + 4] & 0x11) == 1 && (file[at + 4] & 0xE) == 0xE;
            if (is_shown && strcmp((const char *)file + texts + word(at), it->name) == 0)
                *it->at = (void *)(address(at + 8) + slide);
        }
        if (*it->at == NULL)
            fail("the library has no", it->name);
    }
}
#endif

static void load(const char *path, int words_count, char **words, char **environment)
{
    const int opened = open(path, O_RDONLY);
    struct stat told;
    if (opened < 0 || fstat(opened, &told) != 0)
        fail("can't open", path);
    file = mmap(NULL, (size_t)told.st_size, PROT_READ, MAP_PRIVATE, opened, 0);
    close(opened);
    if (word(0) != 0xFEEDFACF)
        fail("not a 64-bit file for macOS:", path);
    mac_stderr = stderr;
    uint64_t info = 0, table = 0, start = 0;
    for (uint64_t k = 0, at = 32; k < word(16); k++, at += word(at + 4)) {
        if (word(at) == SEGMENT_64)
            read_segment(at);
        if (word(at) == SYMTAB)
            table = at;
        if (word(at) == (uint32_t)DYLD_INFO_ONLY)
            info = at;
        if (word(at) == (uint32_t)MAIN)
            start = address(at + 8);
    }
    if (info == 0)
        fail("no LC_DYLD_INFO_ONLY in", path);
    load_segments();
    rebase(file + word(info + 8), file + word(info + 8) + word(info + 12));
    bind(file + word(info + 16), file + word(info + 16) + word(info + 20), 0);
    bind(file + word(info + 32), file + word(info + 32) + word(info + 36), 1);
    protect_segments();
    for (unsigned i = 0; i < count; i++)
        if (strcmp(segments[i].name, "__TEXT") == 0)
            entry = segments[i].address + slide + start;
#ifdef PROGRAM
    (void)table;
#else
    find_exports(table);
#endif
    for (uint64_t k = 0; k < constructors_length / 8; k++) {
        void (*constructor)(int, char **, char **);
        memcpy(&constructor, (void *)(constructors + slide + 8 * k), sizeof constructor);
        constructor(words_count, words, environment);
    }
}

#ifdef PROGRAM
int main(int words_count, char **words, char **environment)
{
    load(PROGRAM, words_count, words, environment);
    return ((int (*)(int, char **, char **))entry)(words_count, words, environment);
}
#else
/* Before each constructor of the program, as macOS loads a library before the constructors of its users. */
static void load_early(int words_count, char **words, char **environment)
{
    environ = environment; /* as the C library does only later */
    const char *path = getenv("YUREWHA_DYLIB");
    if (path == NULL)
        fail("YUREWHA_DYLIB isn't", "set");
    load(path, words_count, words, environment);
}
__attribute__((section(".preinit_array"), used)) static void (*const before_constructors)(int, char **, char **) = load_early;
#endif
