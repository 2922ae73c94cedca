/* Thamrunlek: proved Level 3 BLAS routines on double precision numbers, each callable alone, an integer solution of
 * triangular systems, and a runner for lists of calls.
 *
 * A matrix is stored by columns: entry (i, j), both from 0, of an array with leading dimension ld is element
 * j * ld + i. An array of p rows and q columns needs ld * (q - 1) + p elements, or none if p or q is 0. Each array is
 * passed as a pointer and the number of elements behind it. No pointer is null, not even where the number is 0, but for
 * that of a pack area. The array that is written must not overlap the others.
 *
 * Codes are character numbers, in upper or lower case, as 'N' or 'n'.
 *
 * Every call of a routine returns 0, or the number of its first bad argument, and then it has written nothing; TRSM
 * returns it in a SolveEnd, and GEMM of many items in a ManyEnd. The strip width and the block size are tested first
 * (30); then codes, sizes and leading dimensions, in the order of the numbers given below; then the lengths of the
 * arrays, in that order too. The integer solution and the runner have numbers of their own.
 *
 * The result of a call is fixed to the last bit. Each element starts as +0.0 if beta is zero (the old element is not
 * read), as the old element if beta is one, and else as beta times it. Then, unless alpha is zero, each term turns the
 * sum e into e + (alpha * v) * u, u from the left factor and v from the right, in ascending order, every operation
 * rounded once. Strip width, block size and machine do not change it; only the bits of a NaN are not fixed.
 */
#ifndef THAMRUNLEK_H
#define THAMRUNLEK_H

#include <stddef.h>
#include <stdint.h>

#ifdef __cplusplus
extern "C" {
#endif

/* GEMM, the general product: C := alpha * op(A) * op(B) + beta * C, where op(X) is X or its transpose.
 *
 *  1  transa  N: op(A) is A. T or C: op(A) is the transpose of A.
 *  2  transb  the same for B.
 *  3  m       rows of op(A) and of C, at least 0.
 *  4  n       columns of op(B) and of C, at least 0.
 *  5  k       columns of op(A) and rows of op(B), at least 0.
 *  6  alpha   factor of the product. If it is zero, A and B are not read and may be of any length.
 *  7  a       A: m by k for transa N, else k by m. It is only read. a_len elements; with fewer than A needs the call
 *             is refused, unless m, n, k or alpha is zero.
 *  8  lda     leading dimension of A: at least the rows that A is stored with, and at least 1.
 *  9  b       B: k by n for transb N, else n by k. It is only read. b_len elements, tested like those of A.
 * 10  ldb     leading dimension of B, in the same way.
 * 11  beta    factor of the old C. If it is zero, the old C is not read.
 * 12  c       C, m by n: read and written. c_len elements; with fewer than C needs the call is refused, unless m or n
 *             is zero. Elements that are no entry of C keep their bits.
 * 13  ldc     leading dimension of C: at least m, and at least 1.
 * 30  w       strip width: the columns of C that are worked on at a time, 0 to 64. 0 leaves the choice to the library:
 *             it works as 64.
 * 30  r       block size: the rows and terms that are worked on at a time, 0 to 64, in the same way.
 */
int32_t tl_dgemm(int32_t transa, int32_t transb, int32_t m, int32_t n, int32_t k, double alpha,
                 const double *a, size_t a_len, int32_t lda, const double *b, size_t b_len, int32_t ldb,
                 double beta, double *c, size_t c_len, int32_t ldc, int32_t w, int32_t r);

/* What GEMM of many items returns.
 *
 * number  0, or the number of the first bad argument, and then the call has written nothing.
 * copied  the elements that were copied into the pack area, m * k or 0. It is 0 of a refused call.
 */
struct ManyEnd {
    int32_t number;
    uint64_t copied;
};

/* GEMM of many items, one A and many right sides: C := alpha * A * op(B) + beta * C, where each item has its own B and
 * C. Every C becomes what a call of GEMM of its own, with transa N, would make of it.
 *
 * Item i, from 0, has its B from element i * b_stride of b on, and its C from element i * c_stride of c on.
 *
 * If lda is m, A is read where it stands. With any other lda its columns are first copied to the beginning of the pack
 * area, without padding: entry (i, l) becomes element l * m + i. What is not copied over keeps its bits. Nothing is
 * copied if items, m, n, k or alpha is zero.
 *
 * The numbers 2 to 13 are GEMM's; there is no argument 1. The order of the tests is 30; 2, 3, 4, 5, 8, 10 and 13; 42;
 * 43; 7, 9 and 12, unless items is 0; 44.
 *
 *  2  transb    N: op(B) is B. T or C: op(B) is the transpose of B.
 *  3  m         rows of A and of every C, at least 0.
 *  4  n         columns of op(B) and of every C, at least 0.
 *  5  k         columns of A and rows of op(B), at least 0.
 *  6  alpha     factor of the product. If it is zero, A and B are not read and may be of any length.
 *  7  a         A, m by k. It is only read. a_len elements; with fewer than A needs the call is refused, unless items,
 *               m, n, k or alpha is zero.
 *  8  lda       leading dimension of A: at least m, and at least 1.
 *  9  b         every B: k by n for transb N, else n by k. They are only read, and may overlap each other. b_len
 *               elements; with fewer than (items - 1) * b_stride plus what B needs the call is refused, unless items,
 *               m, n, k or alpha is zero.
 * 10  ldb       leading dimension of every B: at least the rows that B is stored with, and at least 1.
 * 43  b_stride  elements from one B to the next, at least 0. If it is 0, all items have the same B.
 * 11  beta      factor of the old C. If it is zero, no old C is read.
 * 12  c         every C, m by n: read and written. c_len elements; with fewer than (items - 1) * c_stride plus what C
 *               needs the call is refused, unless items, m or n is zero. Elements that are no entry of a C keep their
 *               bits.
 * 13  ldc       leading dimension of every C: at least m, and at least 1.
 * 43  c_stride  elements from one C to the next: at least 0, and at least what C needs, even if items is 0.
 * 42  items     how many there are, 0 to 1000.
 * 44  pack      the pack area. It must not overlap a, b or c. pack_len elements; with fewer than m * k the call is
 *               refused if it has to copy. Where nothing is copied, pack is not looked at: it may be NULL, pack_len
 *               being 0.
 * 30  w         strip width, as for GEMM: the columns of each C.
 * 30  r         block size, as for GEMM.
 */
struct ManyEnd tl_dgemm_many(int32_t transb, int32_t m, int32_t n, int32_t k, double alpha,
                             const double *a, size_t a_len, int32_t lda,
                             const double *b, size_t b_len, int32_t ldb, int32_t b_stride,
                             double beta, double *c, size_t c_len, int32_t ldc, int32_t c_stride, int32_t items,
                             double *pack, size_t pack_len, int32_t w, int32_t r);

/* SYMM, the product with a symmetric matrix A: C := alpha * A * B + beta * C or C := alpha * B * A + beta * C.
 *
 *  1  side    L: A stands left of B. R: A stands right of B.
 *  2  uplo    L: only the lower triangle of A is read. U: only the upper one. The diagonal belongs to both; the other
 *             triangle is taken as the mirror image.
 *  3  m       rows of B and C, at least 0. For side L it is the order of A.
 *  4  n       columns of B and C, at least 0. For side R it is the order of A.
 *  5  alpha   factor of the product. If it is zero, A and B are not read and may be of any length.
 *  6  a       A, m by m for side L, n by n for side R. It is only read. a_len elements; with fewer than A needs the
 *             call is refused, unless m, n or alpha is zero.
 *  7  lda     leading dimension of A: at least its order, and at least 1.
 *  8  b       B, m by n. It is only read. b_len elements, tested like those of A.
 *  9  ldb     leading dimension of B: at least m, and at least 1.
 * 10  beta    factor of the old C. If it is zero, the old C is not read.
 * 11  c       C, m by n: read and written. c_len elements; with fewer than C needs the call is refused, unless m or n
 *             is zero. Elements that are no entry of C keep their bits.
 * 12  ldc     leading dimension of C: at least m, and at least 1.
 * 30  w       strip width, as for GEMM.
 * 30  r       block size, as for GEMM.
 */
int32_t tl_dsymm(int32_t side, int32_t uplo, int32_t m, int32_t n, double alpha,
                 const double *a, size_t a_len, int32_t lda, const double *b, size_t b_len, int32_t ldb,
                 double beta, double *c, size_t c_len, int32_t ldc, int32_t w, int32_t r);

/* SYRK, the rank-k update of a symmetric matrix C: C := alpha * op(A) * op(A)^T + beta * C, where op(A) is A or its
 * transpose.
 *
 *  1  uplo    L: only the lower triangle of C is read and written. U: only the upper one. The diagonal belongs to both.
 *  2  trans   N: op(A) is A. T or C: op(A) is the transpose of A.
 *  3  n       rows of op(A), and the order of C, at least 0.
 *  4  k       columns of op(A), at least 0.
 *  5  alpha   factor of the product. If it is zero, A is not read and may be of any length.
 *  6  a       A: n by k for trans N, else k by n. It is only read. a_len elements; with fewer than A needs the call is
 *             refused, unless n, k or alpha is zero.
 *  7  lda     leading dimension of A: at least the rows that A is stored with, and at least 1.
 *  8  beta    factor of the old C. If it is zero, the old C is not read.
 *  9  c       C, n by n: triangle uplo is read and written. c_len elements; with fewer than C needs the call is
 *             refused, unless n is zero. The other triangle, and elements that are no entry of C, keep their bits.
 * 10  ldc     leading dimension of C: at least n, and at least 1.
 * 30  w       strip width, as for GEMM.
 * 30  r       block size, as for GEMM: the rows, columns and terms that are worked on at a time.
 */
int32_t tl_dsyrk(int32_t uplo, int32_t trans, int32_t n, int32_t k, double alpha,
                 const double *a, size_t a_len, int32_t lda, double beta, double *c, size_t c_len, int32_t ldc,
                 int32_t w, int32_t r);

/* SYR2K, the rank-2k update of a symmetric matrix C: C := alpha * op(A) * op(B)^T + alpha * op(B) * op(A)^T + beta * C.
 * All terms of the first product come before those of the second.
 *
 *  1  uplo    L: only the lower triangle of C is read and written. U: only the upper one. The diagonal belongs to both.
 *  2  trans   N: op(A) is A and op(B) is B. T or C: they are the transposes of A and B.
 *  3  n       rows of op(A) and op(B), and the order of C, at least 0.
 *  4  k       columns of op(A) and op(B), at least 0.
 *  5  alpha   factor of both products. If it is zero, A and B are not read and may be of any length.
 *  6  a       A: n by k for trans N, else k by n. It is only read. a_len elements; with fewer than A needs the call is
 *             refused, unless n, k or alpha is zero.
 *  7  lda     leading dimension of A: at least the rows that A is stored with, and at least 1.
 *  8  b       B: stored like A. It is only read. b_len elements, tested like those of A.
 *  9  ldb     leading dimension of B, in the same way.
 * 10  beta    factor of the old C. If it is zero, the old C is not read.
 * 11  c       C, n by n: triangle uplo is read and written. c_len elements; with fewer than C needs the call is
 *             refused, unless n is zero. The other triangle, and elements that are no entry of C, keep their bits.
 * 12  ldc     leading dimension of C: at least n, and at least 1.
 * 30  w       strip width, as for GEMM.
 * 30  r       block size, as for SYRK.
 */
int32_t tl_dsyr2k(int32_t uplo, int32_t trans, int32_t n, int32_t k, double alpha,
                  const double *a, size_t a_len, int32_t lda, const double *b, size_t b_len, int32_t ldb,
                  double beta, double *c, size_t c_len, int32_t ldc, int32_t w, int32_t r);

/* TRMM, the product with a triangular matrix A: B := alpha * op(A) * B or B := alpha * B * op(A), where op(A) is A or
 * its transpose. Each element starts as +0.0 and has the terms of op(A)'s triangle.
 *
 *  1  side    L: op(A) stands left of B. R: op(A) stands right of B.
 *  2  uplo    L: A is lower triangular, and only its lower triangle is read. U: the same for the upper one.
 *  3  transa  N: op(A) is A. T or C: op(A) is the transpose of A.
 *  4  diag    N: the diagonal of A is read. U: it counts as 1.0 and is not read.
 *  5  m       rows of B, at least 0. For side L it is the order of A.
 *  6  n       columns of B, at least 0. For side R it is the order of A.
 *  7  alpha   factor of the product. If it is zero, A and the old B are not read, A may be of any length, and B becomes
 *             +0.0.
 *  8  a       A, m by m for side L, n by n for side R. It is only read. a_len elements; with fewer than A needs the
 *             call is refused, unless m, n or alpha is zero.
 *  9  lda     leading dimension of A: at least its order, and at least 1.
 * 10  b       B, m by n: read and written. b_len elements; with fewer than B needs the call is refused, unless m or n
 *             is zero. Elements that are no entry of B keep their bits.
 * 11  ldb     leading dimension of B: at least m, and at least 1.
 * 30  w       strip width, as for GEMM: the columns of B, or its rows for side R, that are worked on at a time.
 * 30  r       block size, as for GEMM.
 */
int32_t tl_dtrmm(int32_t side, int32_t uplo, int32_t transa, int32_t diag, int32_t m, int32_t n, double alpha,
                 const double *a, size_t a_len, int32_t lda, double *b, size_t b_len, int32_t ldb,
                 int32_t w, int32_t r);

/* What a solve returns.
 *
 * number  0, or the number of the first bad argument, and then the solve has written nothing.
 * zero    the lowest index, from 0, at which the diagonal of A is zero, +0.0 or -0.0; or -1 if there is none. It is -1
 *         too if diag is U, if alpha, m or n is zero, and of a refused solve.
 */
struct SolveEnd {
    int32_t number;
    int32_t zero;
};

/* TRSM, the solution with a triangular matrix A: B becomes X with op(A) * X = alpha * B or X * op(A) = alpha * B, where
 * op(A) is A or its transpose. Each element starts as alpha times the old one. In the order of solving each element
 * already solved turns the sum e into e + (-1.0 * v) * u, u from the left factor and v from the right; at the end e is
 * divided by the diagonal element, unless diag is U. A zero on the diagonal is not refused: the quotients stand, and
 * the SolveEnd names the lowest one.
 *
 *  1  side    L: op(A) stands left of X. R: op(A) stands right of X.
 *  2  uplo    L: A is lower triangular, and only its lower triangle is read. U: the same for the upper one.
 *  3  transa  N: op(A) is A. T or C: op(A) is the transpose of A.
 *  4  diag    N: the diagonal of A is read. U: it counts as 1.0 and is not read, and nothing is divided.
 *  5  m       rows of B, at least 0. For side L it is the order of A.
 *  6  n       columns of B, at least 0. For side R it is the order of A.
 *  7  alpha   factor of the old B. If it is zero, A and the old B are not read, A may be of any length, and B becomes
 *             +0.0.
 *  8  a       A, m by m for side L, n by n for side R. It is only read. a_len elements; with fewer than A needs the
 *             call is refused, unless m, n or alpha is zero.
 *  9  lda     leading dimension of A: at least its order, and at least 1.
 * 10  b       B, m by n: read and written. b_len elements; with fewer than B needs the call is refused, unless m or n
 *             is zero. Elements that are no entry of B keep their bits.
 * 11  ldb     leading dimension of B: at least m, and at least 1.
 * 30  w       strip width, as for TRMM.
 * 30  r       block size, as for GEMM: the unknowns that are worked on at a time.
 */
struct SolveEnd tl_dtrsm(int32_t side, int32_t uplo, int32_t transa, int32_t diag, int32_t m, int32_t n, double alpha,
                         const double *a, size_t a_len, int32_t lda, double *b, size_t b_len, int32_t ldb,
                         int32_t w, int32_t r);

/* The integer solution with a triangular matrix A: the X with A * X = B, over whole numbers. Entries of A, B and X are
 * signed 16-bit.
 *
 * It returns 0, and X is written; or -1, if no X of such entries satisfies every equation; or the number of the first
 * bad argument, in the order 39, 40, 41. With -1 or a number X keeps its content.
 *
 * 39  uplo    L: A is lower triangular, and only its lower triangle is read. U: the same for the upper one.
 * 39  n       the order of A, 1 to 64.
 * 40  a       A, n by n, without padding: its leading dimension is n. It is only read. a_len elements, exactly n * n.
 *             If one of them on the diagonal is zero, the call is refused with 41.
 * 40  b       B. It is only read. b_len elements, exactly n.
 * 40  x       X. It is only written. x_len elements, exactly n.
 */
int32_t tl_isolve(int32_t uplo, int32_t n, const int16_t *a, size_t a_len, const int16_t *b, size_t b_len,
                  int16_t *x, size_t x_len);

/* What a run of a call sheet returns.
 *
 * number  0, or the number of a refusal, and then the run has written nothing:
 *         34: the sheet's trailer is bad.
 *         35: there are fewer answers than records, or fewer scalars than twice as many.
 *         36: the cursor is none: p is negative or above the count, or s is not 0 and not a strip of an accepted
 *         record p.
 * p, s    the new cursor; of a refused run, the one that it was given. The sheet is finished when p is the count.
 * steps   the steps made, 0 for a refused run.
 * zero    of the records whose last strip this run made, the first whose solve has a zero on the diagonal, by the rules
 *         of SolveEnd; or -1 if there is none. It is -1 too of a refused run.
 */
struct RunEnd {
    int32_t number;
    int32_t p;
    int32_t s;
    uint32_t steps;
    int32_t zero;
};

/* A run of a call sheet: at most budget steps of it, from the cursor (p, s) on.
 *
 * A sheet is an array of words. Its last two words, the trailer, are the index of the first record's first word and the
 * count of the records. Neither is negative, and index + 20 * count is sheet_len - 2. Words before the index are not
 * read. A record has 20 words; those of arguments that its routine lacks are not read:
 *
 *  0  routine: 1 GEMM, 2 SYMM, 3 SYRK, 4 SYR2K, 5 TRMM, 6 TRSM
 *  1  side     2  uplo     3  trans or transa     4  transb     5  diag     6  m     7  n     8  k
 *  9  array that A is in (0: X, 1: Y, 2: Z)      10  A's first element in it      11  lda
 * 12  the same for B                             13                               14  ldb
 * 15  the same for C                             16                               17  ldc
 * 18  w       19  r
 *
 * A matrix has all elements of its array from its first one on. A and B may be in the same array; the matrix that is
 * written is in another one. Each record gets an answer: 0 once its last strip is made, or its number, and then it has
 * written nothing. 31: the routine is not 1 to 6. 32: an array number is not 0 to 2, or the array that is written has
 * another matrix too. 33: a first element is negative or above the length of its array. Any other number is what a call
 * of the routine would return.
 *
 * A step makes one strip of a record, which is w columns of its output (rows for TRMM and TRSM of side R), 64 if w is
 * 0, the last one perhaps fewer; or it refuses a record. A record with nothing to do takes its steps too. So the
 * arrays, the answers and the cursor are all that a sheet needs to be taken up again, and how a sheet is cut into runs
 * changes no bit.
 *
 * X, Y, Z and the answers must not overlap each other, the sheet or the scalars.
 *
 * sheet    the words. They are only read. sheet_len words.
 * scalars  alpha of record p at 2 * p and beta at 2 * p + 1. They are only read. scalars_len elements, at least twice
 *          the count.
 * x, y, z  the arrays X, Y and Z, read and written. x_len, y_len and z_len elements.
 * answers  the answer of record p at p. answers_len words, at least the count. Others keep their bits.
 * p        the cursor: the record that comes next, or the count when the sheet is finished. A sheet begins at (0, 0).
 * s        the strip of it that comes next, from 0.
 * budget   the most steps that this run makes.
 */
struct RunEnd tl_run(const int32_t *sheet, size_t sheet_len, const double *scalars, size_t scalars_len,
                     double *x, size_t x_len, double *y, size_t y_len, double *z, size_t z_len,
                     int32_t *answers, size_t answers_len, int32_t p, int32_t s, uint32_t budget);

/* The build of the library that is in use: "x86-64", "x86-64-v3" or "x86-64-v4", after the level of x86-64 that its
 * processors have. The library has been compiled for each, from the same proved module, and takes the widest one that
 * processor and operating system support, once, when it is loaded. The environment variable THAMRUNLEK_CPU names a
 * narrower one to take. All of them give the same bits.
 */
const char *tl_cpu(void);

#ifdef __cplusplus
}
#endif

#endif
