/* The choice between the builds of the proved module: made once, when the library is loaded, for all of its functions.
 * It decides how long a call takes and never what it gives.
 *
 * link.sh defines two macros. BUILDS(B) has B(cpu, level, build) for each build, the narrowest first: the processors
 * that it is for, the number of their level of x86-64, and what its functions have behind their names.
 * FUNCTIONS(F, build) has F(name, build) for each name that the module exports. So a new function needs no line here.
 */
#include <cpuid.h>
#include <stddef.h>
#include <stdio.h>
#include <stdlib.h>
#include <string.h>

#include "thamrunlek.h"

#define HIDDEN __attribute__((visibility("hidden")))
typedef void Function(void);

/* The functions of all builds. */
#define DECLARATION(name, build) HIDDEN extern Function name##build;
#define DECLARATIONS(cpu, level, build) FUNCTIONS(DECLARATION, build)
BUILDS(DECLARATIONS)

/* Each exported name jumps through a pointer, whatever the function's arguments are. The pointers start with the build
 * that every x86-64 processor runs, so that a call that comes before the choice is a good one too. */
#define JUMP(name, build)                              \
    HIDDEN Function *name##_chosen = name##build;      \
    __asm__(".pushsection .text\n"                     \
            ".balign 16\n"                             \
            ".globl " #name "\n"                       \
            ".type " #name ", @function\n"             \
            #name ": jmp *" #name "_chosen(%rip)\n"    \
            ".size " #name ", . - " #name "\n"         \
            ".popsection");
FUNCTIONS(JUMP, _x86_64)

#define POINTER(name, build) &name##_chosen,
static Function **const pointers[] = {FUNCTIONS(POINTER, )};
enum { COUNT = sizeof pointers / sizeof *pointers };

struct Build {
    const char *cpu;
    int level;
    Function *functions[COUNT];
};

#define ADDRESS(name, build) name##build,
#define BUILD(cpu, level, build) {cpu, level, {FUNCTIONS(ADDRESS, build)}},
static const struct Build builds[] = {BUILDS(BUILD)};
static const struct Build *const end = builds + sizeof builds / sizeof *builds;
static const struct Build *in_use = builds;

static int has(unsigned word, unsigned bits) { return (word & bits) == bits; }

/* The operating system keeps these registers for each thread. */
static int keeps(unsigned registers) {
    unsigned low, high;
    __asm__("xgetbv" : "=a"(low), "=d"(high) : "c"(0));
    return has(low, registers);
}

/* The highest level of x86-64 that has a build and that processor and operating system support, by the features that
 * the System V ABI lists. */
static int supported_level(void) {
    const unsigned second = bit_SSE3 | bit_SSSE3 | bit_SSE4_1 | bit_SSE4_2 | bit_CMPXCHG16B | bit_POPCNT;
    const unsigned third = bit_AVX | bit_FMA | bit_F16C | bit_MOVBE | bit_OSXSAVE;
    const unsigned fourth = bit_AVX512F | bit_AVX512BW | bit_AVX512CD | bit_AVX512DQ | bit_AVX512VL;
    const unsigned xmm_and_ymm = 0x06, zmm_and_masks = 0xe0;
    unsigned a, b, c, d, basic, wide, other;
    if (!__get_cpuid(1, &a, &b, &basic, &d) || !__get_cpuid_count(7, 0, &a, &wide, &c, &d) ||
        !__get_cpuid(0x80000001, &a, &b, &other, &d))
        return 1;
    if (!has(basic, second | third) || !has(wide, bit_AVX2 | bit_BMI | bit_BMI2) ||
        !has(other, bit_LAHF_LM | bit_LZCNT) || !keeps(xmm_and_ymm))
        return 1;
    return has(wide, fourth) && keeps(zmm_and_masks) ? 4 : 3;
}

/* The build for these processors, or null. */
static const struct Build *named(const char *cpu) {
    for (const struct Build *build = builds; build < end; build++)
        if (strcmp(build->cpu, cpu) == 0) return build;
    return NULL;
}

/* Takes the widest build that is supported, or the narrower one that THAMRUNLEK_CPU names. */
__attribute__((constructor(101))) static void choose(void) {
    const int level = supported_level();
    for (const struct Build *build = builds; build < end && build->level <= level; build++) in_use = build;
    const char *asked = getenv("THAMRUNLEK_CPU");
    const struct Build *build = asked == NULL ? in_use : named(asked);
    if (build != NULL && build->level <= level)
        in_use = build;
    else
        fprintf(stderr, "thamrunlek: THAMRUNLEK_CPU is \"%s\", which this %s; %s is taken\n", asked,
                build == NULL ? "library has no build for" : "machine does not support", in_use->cpu);
    for (int i = 0; i < COUNT; i++) *pointers[i] = in_use->functions[i];
}

const char *tl_cpu(void) { return in_use->cpu; }
