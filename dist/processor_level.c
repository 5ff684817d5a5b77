/*
 * Chooses the kernels that run. For x86-64 there are four sets of them, one for each of the levels that the psABI of x86-64 defines.
 * When the library is loaded, or when it is first asked for the level, it chooses those of the highest level that the processor and
 * its system have. Calls that come before that, from other constructors, go to the kernels of x86-64, with the same results. For other
 * processors there is nothing to choose.
 *
 * The environment variable YUREWHA_LEVEL may name a lower level, for tests, or to do without AVX-512. If the processor lacks the level
 * that is named, or there is no such level, a line on standard error says so, and the choice is the one without the variable. A library
 * shouldn't end a process for an environment variable, and silence would let a test believe that it ran another level.
 *
 * This file isn't proved. With heap.c it is all that lies between a caller, the proved code and the C library.
 */
#include "yurewha.h"

#if UINTPTR_MAX != UINT64_MAX || !(defined(__x86_64__) || (defined(__aarch64__) && defined(__AARCH64EL__)))
#error "yurewha is for x86-64 and little-endian aarch64, with pointers of 8 bytes: there is no library for this processor"
#endif

#ifdef __aarch64__

const char *yurewha_processor_level(void)
{
    return "aarch64";
}

#else

#include <cpuid.h>
#include <stdatomic.h>
#include <stdio.h>
#include <stdlib.h>
#include <string.h>
#ifdef __APPLE__
#include <sys/sysctl.h>
#endif

/*
 * The kernels of a level: the functions for which the level matters. Each file of assembly has a table of where its own are.
 * x86-64.s, which has the rest of the library, calls each by a stub, which jumps to where the chosen table says.
 */
struct kernels;

#pragma GCC visibility push(hidden)
extern const struct kernels yurewha_x86_64_kernels, yurewha_x86_64_v2_kernels, yurewha_x86_64_v3_kernels,
    yurewha_x86_64_v4_kernels;
/* The table that the stubs read. */
const struct kernels *_Atomic yurewha_kernels = &yurewha_x86_64_kernels;
#pragma GCC visibility pop

static bool has_all(unsigned value, unsigned bits)
{
    return (value & bits) == bits;
}

/* Every x86-64 processor has it. */
static bool is_x86_64(void)
{
    return true;
}

static bool is_x86_64_v2(void)
{
    unsigned eax, ebx, ecx, edx;
    return __get_cpuid(1, &eax, &ebx, &ecx, &edx) &&
           has_all(ecx, bit_SSE3 | bit_SSSE3 | bit_CMPXCHG16B | bit_SSE4_1 | bit_SSE4_2 | bit_POPCNT) &&
           __get_cpuid(0x80000001, &eax, &ebx, &ecx, &edx) && has_all(ecx, bit_LAHF_LM);
}

/* The registers that the system may save, as bits of XCR0: those of SSE and AVX, and those that AVX-512 adds. */
#define SAVES_AVX (1u << 1 | 1u << 2)
#define SAVES_AVX512 (1u << 5 | 1u << 6 | 1u << 7)

static bool saves(unsigned registers)
{
    unsigned low, high;
    __asm__ volatile("xgetbv" : "=a"(low), "=d"(high) : "c"(0));
    return has_all(low, registers);
}

static bool saves_avx512(void)
{
#ifdef __APPLE__
    /* macOS saves these registers from a thread's first use of them on, and XCR0 doesn't show them before. It says itself if it does. */
    int is_on = 0;
    size_t size = sizeof is_on;
    return sysctlbyname("hw.optional.avx512f", &is_on, &size, NULL, 0) == 0 && is_on != 0;
#else
    return saves(SAVES_AVX512);
#endif
}

static bool is_x86_64_v3(void)
{
    unsigned eax, ebx, ecx, edx;
    return is_x86_64_v2() && __get_cpuid(1, &eax, &ebx, &ecx, &edx) &&
           has_all(ecx, bit_FMA | bit_MOVBE | bit_OSXSAVE | bit_AVX | bit_F16C) && saves(SAVES_AVX) &&
           __get_cpuid_count(7, 0, &eax, &ebx, &ecx, &edx) && has_all(ebx, bit_BMI | bit_AVX2 | bit_BMI2) &&
           __get_cpuid(0x80000001, &eax, &ebx, &ecx, &edx) && has_all(ecx, bit_LZCNT);
}

static bool is_x86_64_v4(void)
{
    unsigned eax, ebx, ecx, edx;
    return is_x86_64_v3() && saves_avx512() && __get_cpuid_count(7, 0, &eax, &ebx, &ecx, &edx) &&
           has_all(ebx, bit_AVX512F | bit_AVX512DQ | bit_AVX512CD | bit_AVX512BW | bit_AVX512VL);
}

/* The highest level first. */
static const struct level {
    const char *name;
    bool (*is_supported)(void);
    const struct kernels *kernels;
} levels[] = {
    {"x86-64-v4", is_x86_64_v4, &yurewha_x86_64_v4_kernels},
    {"x86-64-v3", is_x86_64_v3, &yurewha_x86_64_v3_kernels},
    {"x86-64-v2", is_x86_64_v2, &yurewha_x86_64_v2_kernels},
    {"x86-64", is_x86_64, &yurewha_x86_64_kernels},
};
#define LEVELS (sizeof levels / sizeof *levels)

/* The first level that the processor has: of the given name, or of any if the name is null; else null. */
static const struct level *find(const char *name)
{
    for (size_t at = 0; at < LEVELS; at++)
        if ((name == NULL || strcmp(name, levels[at].name) == 0) && levels[at].is_supported())
            return &levels[at];
    return NULL;
}

/* The level that was chosen; null before the choice. */
static const struct level *_Atomic chosen;

/* Threads that come here at once all get the choice of one of them. */
static const struct level *choose(void)
{
    const char *name = getenv("YUREWHA_LEVEL");
    const bool is_asked = name != NULL && *name != '\0';
    const struct level *asked = is_asked ? find(name) : NULL;
    const struct level *found = asked != NULL ? asked : find(NULL);
    const struct level *other = NULL;
    if (!atomic_compare_exchange_strong(&chosen, &other, found))
        return other;
    yurewha_kernels = found->kernels;
    if (is_asked && asked == NULL)
        fprintf(stderr, "yurewha: YUREWHA_LEVEL is \"%.40s\", which is no level of this processor, so %s is used\n", name,
                found->name);
    return found;
}

static const struct level *level(void)
{
    const struct level *found = chosen;
    return found != NULL ? found : choose();
}

/*
 * Before the constructors of those who use the library, and while there is one thread, so that the environment can be read. Mach-O has
 * no such order: there constructors run as the objects were linked, and a shared library's before those of its users.
 */
__attribute__((constructor(101))) static void choose_early(void)
{
    (void)level();
}

const char *yurewha_processor_level(void)
{
    return level()->name;
}

#endif
