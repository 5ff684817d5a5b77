/*
 * The choice of a level, on processors that the test makes up: each has all features but one, or its system doesn't save some
 * registers. No emulator has such a system, nor AVX-512. This includes processor_level.c, whose questions to the processor come here.
 * The tables of the levels have their names alone.
 */
#define _POSIX_C_SOURCE 200809L
#include "checks.h"

#include <cpuid.h>
#include <stdarg.h>
#include <stdatomic.h>
#include <stdint.h>
#include <stdlib.h>
#include <string.h>

/*
 * The words that hold the features: ecx of the leaves 1 and 0x80000001, ebx of leaf 7, the low half of XCR0, and what macOS says of
 * AVX-512. With -D__APPLE__ this tests the choice on macOS.
 */
enum word { LEAF_1, LEAF_7, EXTENDED, XCR0, SYSCTL, WORDS };

static struct {
    unsigned words[WORDS];
    unsigned asked; /* how often the processor was asked */
} processor;

/* What the choice printed to standard error. */
static char said[200];

static int cpuid_of(unsigned leaf, unsigned part, unsigned *eax, unsigned *ebx, unsigned *ecx, unsigned *edx)
{
    processor.asked++;
    *eax = *ebx = *ecx = *edx = 0;
    if (leaf == 1)
        *ecx = processor.words[LEAF_1];
    if (leaf == 7 && part == 0)
        *ebx = processor.words[LEAF_7];
    if (leaf == 0x80000001)
        *ecx = processor.words[EXTENDED];
    return leaf == 1 || leaf == 7 || leaf == 0x80000001;
}

/* A processor whose system lets no program read XCR0 ends a program that reads it. */
static unsigned xcr0(void)
{
    expect((processor.words[LEAF_1] & bit_OSXSAVE) != 0, "XCR0 is read only where the system lets programs read it", "");
    return processor.words[XCR0];
}

static void say(FILE *to, const char *format, ...)
{
    const size_t length = strlen(said);
    va_list rest;
    va_start(rest, format);
    vsnprintf(said + length, sizeof said - length, format, rest);
    va_end(rest);
    expect(to == stderr, "the line goes to standard error", said);
}

static char *variable(const char *name);

#ifdef __APPLE__
/* As macOS has it, which fails for a name that it doesn't know, such as that of a feature that came later. */
static int asked(const char *name, void *old, size_t *size, void *new, size_t length)
{
    expect(strcmp(name, "hw.optional.avx512f") == 0 && *size == sizeof(int) && new == NULL && length == 0, "macOS is asked", name);
    if ((processor.words[SYSCTL] & 2) == 0)
        return -1;
    *(int *)old = processor.words[SYSCTL] & 1;
    return 0;
}
#define sysctlbyname asked
#endif
#define __get_cpuid(leaf, eax, ebx, ecx, edx) cpuid_of(leaf, 0, eax, ebx, ecx, edx)
#define __get_cpuid_count(leaf, part, eax, ebx, ecx, edx) cpuid_of(leaf, part, eax, ebx, ecx, edx)
#define __asm__
#define volatile(...) (low = xcr0(), high = 0, (void)high)
#define fprintf say
#define getenv variable
#include "../processor_level.c"
#undef __asm__
#undef volatile
#undef fprintf
#undef getenv

struct kernels {
    const char *level;
};
const struct kernels yurewha_x86_64_kernels = {"x86-64"}, yurewha_x86_64_v2_kernels = {"x86-64-v2"},
                     yurewha_x86_64_v3_kernels = {"x86-64-v3"}, yurewha_x86_64_v4_kernels = {"x86-64-v4"};

/* The variable's value, and what another thread has chosen by the time that it is read. */
static const char *level_variable;
static const struct level *of_other_thread;

static char *variable(const char *name)
{
    if (of_other_thread != NULL)
        chosen = of_other_thread;
    return strcmp(name, "YUREWHA_LEVEL") == 0 ? (char *)level_variable : NULL;
}

/* What the psABI of x86-64 demands of each level beyond those below it, and what the system has to save. */
static const struct feature {
    const char *level;
    const char *below;
    const char *name;
    enum word word;
    unsigned bit;
} features[] = {
    {"x86-64-v2", "x86-64", "SSE3", LEAF_1, 0},
    {"x86-64-v2", "x86-64", "SSSE3", LEAF_1, 9},
    {"x86-64-v2", "x86-64", "CMPXCHG16B", LEAF_1, 13},
    {"x86-64-v2", "x86-64", "SSE4.1", LEAF_1, 19},
    {"x86-64-v2", "x86-64", "SSE4.2", LEAF_1, 20},
    {"x86-64-v2", "x86-64", "POPCNT", LEAF_1, 23},
    {"x86-64-v2", "x86-64", "LAHF", EXTENDED, 0},
    {"x86-64-v3", "x86-64-v2", "FMA", LEAF_1, 12},
    {"x86-64-v3", "x86-64-v2", "MOVBE", LEAF_1, 22},
    {"x86-64-v3", "x86-64-v2", "OSXSAVE", LEAF_1, 27},
    {"x86-64-v3", "x86-64-v2", "AVX", LEAF_1, 28},
    {"x86-64-v3", "x86-64-v2", "F16C", LEAF_1, 29},
    {"x86-64-v3", "x86-64-v2", "BMI1", LEAF_7, 3},
    {"x86-64-v3", "x86-64-v2", "AVX2", LEAF_7, 5},
    {"x86-64-v3", "x86-64-v2", "BMI2", LEAF_7, 8},
    {"x86-64-v3", "x86-64-v2", "LZCNT", EXTENDED, 5},
    {"x86-64-v3", "x86-64-v2", "saved registers of SSE", XCR0, 1},
    {"x86-64-v3", "x86-64-v2", "saved registers of AVX", XCR0, 2},
    {"x86-64-v4", "x86-64-v3", "AVX512F", LEAF_7, 16},
    {"x86-64-v4", "x86-64-v3", "AVX512DQ", LEAF_7, 17},
    {"x86-64-v4", "x86-64-v3", "AVX512CD", LEAF_7, 28},
    {"x86-64-v4", "x86-64-v3", "AVX512BW", LEAF_7, 30},
    {"x86-64-v4", "x86-64-v3", "AVX512VL", LEAF_7, 31},
#ifdef __APPLE__
    {"x86-64-v4", "x86-64-v3", "what macOS says of AVX-512", SYSCTL, 0},
    {"x86-64-v4", "x86-64-v3", "a macOS that knows of AVX-512", SYSCTL, 1},
#else
    {"x86-64-v4", "x86-64-v3", "saved masks of AVX-512", XCR0, 5},
    {"x86-64-v4", "x86-64-v3", "saved upper halves of AVX-512", XCR0, 6},
    {"x86-64-v4", "x86-64-v3", "saved upper registers of AVX-512", XCR0, 7},
#endif
};
#define FEATURES (sizeof features / sizeof *features)

/* The processor has what the levels up to this one demand. */
static void have(const char *level)
{
    memset(&processor, 0, sizeof processor);
    for (size_t i = 0; i < FEATURES && strcmp(features[i].level, level) <= 0; i++)
        processor.words[features[i].word] |= 1u << features[i].bit;
}

/* A choice by the variable's value: the level, and whether it says that another one was named. */
static void expect_choice(const char *value, const char *level, bool says, const char *in)
{
    char line[200] = "";
    if (says)
        snprintf(line, sizeof line, "yurewha: YUREWHA_LEVEL is \"%.40s\", which is no level of this processor, so %s is used\n",
                 value, level);
    chosen = NULL;
    level_variable = value;
    *said = '\0';
    expect(strcmp(yurewha_processor_level(), level) == 0, "the choice is the processor's highest level, or that named", in);
    expect(strcmp(said, line) == 0, "a line says whether a level was named that the processor lacks", in);
    expect(strcmp(yurewha_kernels->level, level) == 0, "calls go to the kernels of the level", in);
    processor.asked = 0;
    expect(strcmp(yurewha_processor_level(), level) == 0 && processor.asked == 0, "a choice is made once", in);
}

static void features_are_needed(void)
{
    for (size_t i = 0; i < FEATURES; i++) {
        const struct feature *it = &features[i];
        have("x86-64-v4");
        processor.words[it->word] &= ~(1u << it->bit);
        expect_choice(NULL, it->below, false, it->name);
        expect_choice(it->level, it->below, true, it->name);
        have(it->level);
        expect_choice(NULL, it->level, false, it->name);
        expect_choice(it->level, it->level, false, it->name);
    }
}

/* No name but that of a level of the processor names one. */
static void levels_are_named(void)
{
    static const char *const levels[] = {"x86-64", "x86-64-v2", "x86-64-v3", "x86-64-v4"};
    static const char *const others[] = {
        "x86-64-v9", "x86-64-v", "x86-64-v33", "x86", "X86-64", " x86-64", "v2",
        "a name that is longer than the forty bytes that the line has of it",
    };
    for (size_t has = 0; has < 4; has++) {
        have(levels[has]);
        const char *highest = levels[has];
        expect_choice(NULL, highest, false, highest);
        expect_choice("", highest, false, highest);
        for (size_t named = 0; named < 4; named++)
            expect_choice(levels[named], named <= has ? levels[named] : highest, named > has, highest);
        for (size_t i = 0; i < sizeof others / sizeof *others; i++)
            expect_choice(others[i], highest, true, others[i]);
    }
}

/* Another thread's choice that comes first is kept, and nothing is printed. */
static void another_thread_chooses_first(void)
{
    have("x86-64-v3");
    expect_choice("x86-64-v2", "x86-64-v2", false, "");
    of_other_thread = chosen;
    level_variable = "no level";
    chosen = NULL;
    expect(level() == of_other_thread && chosen == of_other_thread && *said == '\0', "the first choice is kept", "");
    expect(yurewha_kernels == &yurewha_x86_64_v2_kernels, "and calls go to its kernels", "");
    of_other_thread = NULL;
}

/* The constructors of those who use the library come with this priority at the earliest, and without one after that. */
static bool was_early;
__attribute__((constructor(102))) static void look(void) { was_early = chosen != NULL; }

int main(void)
{
    expect(was_early, "the choice is made before the constructors of others, and before main", "");
    features_are_needed();
    levels_are_named();
    another_thread_chooses_first();
    return result();
}
