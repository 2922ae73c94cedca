/* Makes calls with bad arguments through both interfaces. With OWN it has handlers of its own. */
#include <stdio.h>

enum { ROW_MAJOR = 101, COLUMN_MAJOR = 102, NO_TRANS = 111 };

void dgemm_(const char *transa, const char *transb, const int *m, const int *n, const int *k, const double *alpha,
            const double *a, const int *lda, const double *b, const int *ldb, const double *beta, double *c,
            const int *ldc, size_t transa_len, size_t transb_len);
void cblas_dgemm(int layout, int transa, int transb, int m, int n, int k, double alpha, const double *a, int lda,
                 const double *b, int ldb, double beta, double *c, int ldc);

#ifdef OWN
void xerbla_(const char *name, const int *number, size_t name_len) {
    printf("own xerbla_: %.*s %d\n", (int)name_len, name, *number);
}
#endif
#ifdef OWN_CBLAS
extern int RowMajorStrg;

void cblas_xerbla(int number, const char *name, const char *form, ...) {
    printf("own cblas_xerbla: %s %d%s %s", name, number, RowMajorStrg ? " by rows" : "", form[0] ? form : "\n");
}
#endif

int main(void) {
    const double a[4] = {1, 3, 2, 4}, b[4] = {5, 7, 6, 8}, one = 1, zero = 0;
    const int two = 2, bad = 1;
    double c[4] = {9, 9, 9, 9};
    dgemm_("N", "N", &two, &two, &two, &one, a, &bad, b, &two, &zero, c, &two, 1, 1);
    cblas_dgemm(COLUMN_MAJOR, NO_TRANS, NO_TRANS, 2, 2, 2, 1, a, 1, b, 2, 0, c, 2);
    cblas_dgemm(ROW_MAJOR, NO_TRANS, NO_TRANS, 2, 2, 2, 1, a, 1, b, 2, 0, c, 2);
    cblas_dgemm(ROW_MAJOR, NO_TRANS, 7, 2, 2, 2, 1, a, 2, b, 2, 0, c, 2);
    cblas_dgemm(7, NO_TRANS, NO_TRANS, 2, 2, 2, 1, a, 2, b, 2, 0, c, 2);
    printf("%g %g %g %g\n", c[0], c[1], c[2], c[3]);
    dgemm_("N", "N", &two, &two, &two, &one, a, &two, b, &two, &zero, c, &two, 1, 1);
    printf("%g %g %g %g\n", c[0], c[1], c[2], c[3]);
    return 0;
}
