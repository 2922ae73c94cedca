/* The portal frame of portal_frame's src/lib.rs by direct calls in C. direct.rs and direct.f90 do the same and print the
 * same. */
#include <inttypes.h>
#include <stdio.h>
#include <stdlib.h>
#include <string.h>
#include "thamrunlek.h"

/* Lower triangular factor of the stiffness; end moments by unknown; loads and fixed end moments by load case; factors
 * of the load cases by combination. All are stored by columns. */
static const double factor[9] = {94.16607669431704, -94.16607669431706, -94.16607669431706,
                                 0, 217.16525965264333, 33.72431673332265, 0, 0, 214.5306981783039};
static const double end_stiffness[18] = {-8867.25, -8867.25, 0, 0, -8867.25, -8867.25,
                                         11823, 23646, 32382, 16191, 0, 0,
                                         0, 0, 16191, 32382, 23646, 11823};
static const double loads[9] = {0, 36, -36, 0, 54, -54, 20, 0, 0};
static const double fixed_end_moments[18] = {0, 0, -36, 36, 0, 0, 0, 0, -54, 54, 0, 0, 0, 0, 0, 0, 0, 0};
static const double factors[12] = {1.35, 1.5, 0, 1.35, 1.5, 0.9, 1.35, 1.05, 1.5, 1, 0, 1.5};

static const char *const unknowns[3] = {"u", "phi B", "phi C"};
static const char *const ends[6] = {"AB", "BA", "BC", "CB", "CD", "DC"};

/* Ends the program if a call was refused. */
static void need(int32_t refusal) {
    if (refusal != 0) {
        fprintf(stderr, "refused with number %" PRId32 "\n", refusal);
        exit(EXIT_FAILURE);
    }
}

/* Ends the program if a solve was refused, or found a zero on the diagonal of the factor: nothing holds the unknown
 * there. */
static void need_solved(struct SolveEnd end) {
    need(end.number);
    if (end.zero >= 0) {
        fprintf(stderr, "nothing holds %s: the frame is a mechanism\n", unknowns[end.zero]);
        exit(EXIT_FAILURE);
    }
}

/* Prints a matrix of four columns: each entry's row, column, value and bits. */
static void print(const char *const *names, int rows, const double *values) {
    for (int p = 0; p < 4 * rows; p++) {
        uint64_t bits;
        memcpy(&bits, &values[p], sizeof bits);
        printf("%-6s%2d%14.6f  %016" PRIX64 "\n", names[p % rows], p / rows + 1, values[p], bits);
    }
}

int main(void) {
    double x[12] = {0}, m[24] = {0};
    need(tl_dgemm('N', 'N', 3, 4, 3, 1, loads, 9, 3, factors, 12, 3, 0, x, 12, 3, 0, 0));
    need_solved(tl_dtrsm('L', 'L', 'N', 'N', 3, 4, 1, factor, 9, 3, x, 12, 3, 0, 0));
    need_solved(tl_dtrsm('L', 'L', 'T', 'N', 3, 4, 1, factor, 9, 3, x, 12, 3, 0, 0));
    need(tl_dgemm('N', 'N', 6, 4, 3, 1, fixed_end_moments, 18, 6, factors, 12, 3, 0, m, 24, 6, 0, 0));
    need(tl_dgemm('N', 'N', 6, 4, 3, 1, end_stiffness, 18, 6, x, 12, 3, 1, m, 24, 6, 0, 0));
    print(unknowns, 3, x);
    print(ends, 6, m);
    return EXIT_SUCCESS;
}
