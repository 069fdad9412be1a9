/* Pelosumba: track lists merged by distance, and the matrix kernel beneath. The library is libcapi.a where it is built and
   libpelosumba.a where it is installed. C99 and C++ take this header.

   A call that can refuse answers a number: 0 for answered, or that of the first question that is not met (PEL_QUESTION_..,
   in words in docs/FORMAT.md), and a refusal writes nothing. Below, each call has the questions that it puts, in their order.
   A slice is a pointer and a length in elements; matrices are row by row.

   What a caller owes; no call can check it:
   - A pointer leads to as many elements as its length says, aligned for their type. A slice of length 0 may have any
     pointer, a null pointer too: it is an empty slice (bindings/c/empty.c tries this with every slice of every call).
   - A pointer to a single number, as out or count, is not null, and the number may hold anything before.
   - What is written overlaps nothing else that the call is lent: no slice that is written overlaps another slice, and each
     number that is written has a place of its own, in no slice. What is only read may overlap: a matrix may be both
     factors of a product, and one list may be base, ours and theirs.
   - Nobody else writes lent memory during the call, nor reads what the call writes. The library keeps nothing between calls,
     so calls on different memory may run at one time. */
#ifndef PELOSUMBA_H
#define PELOSUMBA_H

#include <stddef.h>
#include <stdint.h>

/* The edition of this header and of the library beside it. */
#define PEL_VERSION "0.3.0"
#define PEL_VERSION_MAJOR 0
#define PEL_VERSION_MINOR 3
#define PEL_VERSION_PATCH 0

#ifdef __cplusplus
extern "C" {
#endif

/* The greatest sizes; bindings/c/constants.c holds all these numbers to what the library answers. */
enum {
    PEL_MAX_SIDE = 16,           /* a side of a matrix */
    PEL_MAX_TRACKS = 32,         /* tracks in a list */
    PEL_MAX_DIMENSION = 9,       /* values in a state */
    PEL_MAX_VALUES = 1728,       /* values of a list: 32 tracks of 54 fields */
    PEL_MAX_LIST_BYTES = 14050,  /* bytes of a list */
    PEL_MAX_ROW_BYTES = 384      /* bytes of a merge's rows: 96 rows of four bytes */
};

/* In a row, the index where there is no track. */
enum { PEL_NO_TRACK = 255 };

/* The verdict of a row, its fourth byte. */
enum {
    PEL_KEEP = 0,         /* base, ours and theirs are equal */
    PEL_TAKE_OURS = 1,    /* ours alone has changed or is new, or theirs has the same */
    PEL_TAKE_THEIRS = 2,  /* theirs alone has changed or is new */
    PEL_DELETED = 3,      /* one side has deleted what the other left as it was, or both have */
    PEL_CONFLICT = 4,     /* changed or added on both sides, not alike, not fused; or changed on one and deleted on the other */
    PEL_FUSE = 5          /* changed on both sides, not alike, and pel_fuse has a track for them */
};

/* The kind of a comparison. */
enum { PEL_NO_DISTANCE = 0, PEL_NEAR = 1, PEL_FAR = 2 };

/* The list that a row's winning record stands in. */
enum { PEL_NOBODY = 0, PEL_OURS = 1, PEL_THEIRS = 2 };

/* What a call answers: 0, or the number of the first question that is not met. */
enum {
    PEL_ANSWERED = 0,
    PEL_QUESTION_SIDE = 1,                /* is each side 1 to 16? */
    PEL_QUESTION_LENGTH = 2,              /* has each slice its length? */
    PEL_QUESTION_FINITE_ENTRIES = 3,      /* is every entry finite? */
    PEL_QUESTION_FINITE_EIGENVALUES = 4,  /* is every eigenvalue finite? */
    PEL_QUESTION_ROW_NORM = 5,            /* is some row's greatest entry not below 1e-150? */
    PEL_QUESTION_PIVOT_RATIO = 6,         /* has each column a pivot whose ratio is not below 1e-14? */
    PEL_QUESTION_CHOLESKY_PIVOT = 7,      /* is each pivot above 0 and finite? */
    PEL_QUESTION_DETERMINANT = 8,         /* is the determinant large enough beside the entries? */
    PEL_QUESTION_HEADER = 9,              /* are there two bytes? */
    PEL_QUESTION_COUNT = 10,              /* is the count at most 32? */
    PEL_QUESTION_DIMENSION = 11,          /* is the dimension 1 to 9? */
    PEL_QUESTION_PRESENT = 12,            /* is the map, or the next stored field, all there? */
    PEL_QUESTION_SPARE_BITS = 13,         /* are the map's spare bits 0? */
    PEL_QUESTION_FINITE_FIELD = 14,       /* is the field finite? */
    PEL_QUESTION_NONZERO_FIELD = 15,      /* is a stored field not all zero bits? */
    PEL_QUESTION_NOTHING_AFTER = 16,      /* does nothing follow the last track? */
    PEL_QUESTION_ONE_DIMENSION = 17,      /* have all three lists one dimension? */
    PEL_QUESTION_FLOOR_AND_GATE = 18,     /* is the floor finite and above 0, the gate finite and not below 0? */
    PEL_QUESTION_ROW_BUFFER = 19,         /* has the buffer four bytes for each track of the three lists? */
    PEL_QUESTION_LIST_BUFFER = 20,        /* is the buffer long enough for the list? */
    PEL_QUESTION_NO_CONFLICT = 21,        /* has no row verdict 4? */
    PEL_QUESTION_MERGED_COUNT = 22        /* would at most 32 tracks be written? */
};

/* Numbers. None of these refuses. */

/* x without its sign. */
double pel_abs(double x);
/* The greater of a and b, the other where one is a NaN; of equal numbers, 0.0 and -0.0 too, the first. */
double pel_max(double a, double b);
/* The rounded square root of IEEE 754. */
double pel_sqrt(double x);
/* x itself, and c itself: the names that the kernel's source has for a number's value and for a constant. */
double pel_value(double x);
double pel_constant(double c);

/* Matrices: row by row, each side from 1 to 16. A single number is written to *out. */

/* The m by n product of a, m by k, and b, k by n. Asks 1, 2. */
uint32_t pel_mat_mul(const double *a, size_t a_len, const double *b, size_t b_len, size_t m, size_t k, size_t n,
                     double *out, size_t out_len);
/* The n by m transpose of a, m by n. Asks 1, 2. */
uint32_t pel_mat_transpose(const double *a, size_t a_len, size_t m, size_t n, double *out, size_t out_len);
/* The n by n product of the transpose of a, m by n, and a. Asks 1, 2. */
uint32_t pel_mat_ata(const double *a, size_t a_len, size_t m, size_t n, double *out, size_t out_len);
/* Half of the sum of a and its transpose. Asks 1, 2. */
uint32_t pel_mat_symmetrize(const double *a, size_t a_len, size_t n, double *out, size_t out_len);
/* The product of a, n by n, and the vector x. Asks 1, 2. */
uint32_t pel_mat_vec_mul(const double *a, size_t a_len, const double *x, size_t x_len, size_t n, double *out,
                         size_t out_len);
/* The sum of the diagonal of a. Asks 1, 2. */
uint32_t pel_mat_trace(const double *a, size_t a_len, size_t n, double *out);
/* The trace of the product of a and b. Asks 1, 2. */
uint32_t pel_mat_trace_product(const double *a, size_t a_len, const double *b, size_t b_len, size_t n, double *out);
/* The trace of the cube of the product of a and b. Asks 1, 2. */
uint32_t pel_mat_trace_cube(const double *a, size_t a_len, const double *b, size_t b_len, size_t n, double *out);
/* The quadratic form of x under a. Asks 1, 2. */
uint32_t pel_mat_quadratic_form(const double *x, size_t x_len, const double *a, size_t a_len, size_t n, double *out);
/* The squared Mahalanobis distance of x and mu, by the inverse of their covariance. Asks 1, 2. */
uint32_t pel_mahalanobis_distance_squared_with_inv(const double *x, size_t x_len, const double *mu, size_t mu_len,
                                                   const double *inv, size_t inv_len, size_t n, double *out);
/* cov with alpha added to its diagonal. Asks 1, 2. */
uint32_t pel_tikhonov(const double *cov, size_t cov_len, double alpha, size_t n, double *out, size_t out_len);
/* The root of the sum of the squares of all entries of a, m by n. Asks 1, 2. */
uint32_t pel_mat_frobenius(const double *a, size_t a_len, size_t m, size_t n, double *out);
/* The Euclidean norm of x. Asks 1, 2. */
uint32_t pel_vec_norm(const double *x, size_t x_len, size_t n, double *out);
/* The lower triangular Cholesky factor of a, of which no entry above the diagonal is read. Asks 1, 2, 7. */
uint32_t pel_mat_cholesky(const double *a, size_t a_len, size_t n, double *out, size_t out_len);
/* The greatest absolute entry of each row of a. Asks 1, 2. */
uint32_t pel_row_inf_norms(const double *a, size_t a_len, size_t n, double *out, size_t out_len);
/* The vector that a, n by n, takes to b. Asks 1, 2, 5, 6. */
uint32_t pel_mat_solve(const double *a, size_t a_len, const double *b, size_t b_len, size_t n, double *out,
                       size_t out_len);
/* The inverse of a. Asks 1, 2, 5, 6. */
uint32_t pel_mat_inv(const double *a, size_t a_len, size_t n, double *out, size_t out_len);
/* The determinant of a; 0.0 where a column has no pivot. Asks 1, 2. */
uint32_t pel_mat_det(const double *a, size_t a_len, size_t n, double *out);
/* The squared Mahalanobis distance of x and mu under cov. Asks 1, 2, 5, 6. */
uint32_t pel_mahalanobis_distance_squared(const double *x, size_t x_len, const double *mu, size_t mu_len,
                                          const double *cov, size_t cov_len, size_t n, double *out);
/* The eigenvalues of the symmetric part of a in descending order, and their vectors in the columns of the second.
   Asks 1, 2, 4. */
uint32_t pel_mat_symmetric_eigen(const double *a, size_t a_len, size_t n, double *values, size_t values_len,
                                 double *vectors, size_t vectors_len);
/* The nearest matrix whose eigenvalues are not below min_eig, how many were raised, by how much at most, and which: bit k of
   clipped_indices is for eigenvalue k in descending order. Asks 1, 2, 3, 4. */
uint32_t pel_nearest_psd(const double *cov, size_t cov_len, double min_eig, size_t n, double *out, size_t out_len,
                         size_t *n_clipped, double *max_clip_magnitude, uint32_t *clipped_indices);
/* The same by its other name. Asks 1, 2, 3, 4. */
uint32_t pel_eigenvalue_floor(const double *cov, size_t cov_len, double min_eig, size_t n, double *out,
                              size_t out_len, size_t *n_clipped, double *max_clip_magnitude,
                              uint32_t *clipped_indices);
/* Power iteration: the eigenvalue that is greatest in size, and its vector v; at most max_iter rounds. Asks 1, 2. */
uint32_t pel_mat_eigenvector_max(const double *a, size_t a_len, size_t n, uint32_t max_iter, double tol, double *v,
                                 size_t v_len, double *lambda);
/* The largest singular value of a, by power iteration on the product of its transpose and itself. Asks 1, 2. */
uint32_t pel_mat_largest_singular_value(const double *a, size_t a_len, size_t n, uint32_t max_iter, double tol,
                                        double *out);
/* The condition number: infinity where a is singular at the source's tolerances, and for every 1 by 1 matrix. Asks 1, 2. */
uint32_t pel_condition_number(const double *a, size_t a_len, size_t n, double *out);
/* cov with alpha added to its diagonal, and the condition numbers before and after. Asks 1, 2. */
uint32_t pel_tikhonov_with_report(const double *cov, size_t cov_len, double alpha, size_t n, double *out,
                                  size_t out_len, double *before, double *after);
/* Track i with the state mu and the covariance p_i, track j with x and p_j: whether they are near, far or have no distance,
   under p_i + p_j with its eigenvalues raised to the floor. The kind is PEL_NO_DISTANCE, PEL_NEAR or PEL_FAR; the squared
   distance is written for near and far alone. Asks 1, 2, 18. */
uint32_t pel_compare(const double *mu, size_t mu_len, const double *x, size_t x_len, const double *p_i,
                     size_t p_i_len, const double *p_j, size_t p_j_len, size_t n, double floor, double gate,
                     uint32_t *kind, double *d2);
/* Ours and theirs fused over base: three tracks by their fields, d values of the state and then the lower triangle of the
   covariance row by row, d + d(d+1)/2 in all, and as many in out. Yo, Yt and Yb are the inverses of the covariances, xo, xt
   and xb the states; Y is (Yo + Yt) - Yb, and y is (Yo xo + Yt xt) - Yb xb. The fused state is the vector that Y takes to y,
   the fused covariance the symmetric part of the inverse of Y with its eigenvalues raised to the floor, which may be any
   number, as for pel_nearest_psd. Either *fused is 1 and out has the fused track's fields, or *fused is 0 and out stays: where
   an inverse, the solution or the repair is refused, or an entry of the fused track is not finite. Asks 1, 2. */
uint32_t pel_fuse(const double *base, size_t base_len, const double *ours, size_t ours_len, const double *theirs,
                  size_t theirs_len, size_t d, double floor, double *out, size_t out_len, uint32_t *fused);
/* The determinant of m, 3 by 3. Asks 2. */
uint32_t pel_mat3_det(const double *m, size_t m_len, double *out);
/* The inverse of m, 3 by 3, by cofactors. Asks 2, 8. */
uint32_t pel_mat3_inv(const double *m, size_t m_len, double *out, size_t out_len);
/* The vector that a, 3 by 3, takes to b. Asks 2, 8. */
uint32_t pel_mat3_solve(const double *a, size_t a_len, const double *b, size_t b_len, double *out, size_t out_len);

/* Track lists. Values are the tracks' fields, one track after the other: of each, d values of the state, then the lower
   triangle of the covariance row by row, d + d(d+1)/2 in all for the dimension d. */

/* A list's values, count and dimension; what the slice holds past them stays. Asks 9, 10, 11, then 12 to 15 of each track, 16,
   and last 2: values_len is at least the number of values, and PEL_MAX_VALUES always is. */
uint32_t pel_read_list(const uint8_t *list, size_t list_len, double *values, size_t values_len, size_t *count,
                       size_t *dimension);
/* The list of so many tracks with these values, and its length; bytes past it stay. Asks 10, 11, 2, 14, 20. */
uint32_t pel_write_list(size_t count, size_t dimension, const double *values, size_t values_len, uint8_t *out,
                        size_t out_len, size_t *length);
/* A track's own bytes, by the offset of its record: *start is the offset, whatever it is, and *length the record's length, 0
   where no record of the list starts there or the list is refused. The first record starts at 2, the next where one ends.
   Asks nothing. */
void pel_record(const uint8_t *list, size_t list_len, size_t offset, size_t *start, size_t *length);

/* Merges ours and theirs over their base: tracks are paired where their squared distance is at most the gate. The buffer has
   at least four bytes for each track of the three lists; PEL_MAX_ROW_BYTES always do. Its first full + half + single rows are
   written, four bytes each: the index in base, in ours and in theirs (PEL_NO_TRACK for none) and the verdict. Where a row has
   all three and both sides have changed the track, not alike, it is PEL_FUSE if pel_fuse with this floor has a track for the
   three, and PEL_CONFLICT if not. The bytes past the rows stay. full, half and single count the rows with three, two and one
   track.
   Asks 9 to 16 of base, of ours and of theirs, 17, 18, 19. */
uint32_t pel_merge(const uint8_t *base, size_t base_len, const uint8_t *ours, size_t ours_len, const uint8_t *theirs,
                   size_t theirs_len, double floor, double gate, uint8_t *rows, size_t rows_len, size_t *full,
                   size_t *half, size_t *single);
/* Merges as pel_merge does, to the same rows and counts, and writes the merged list to the front of out: its dimension is that
   of the three lists, and each row in order gives base's record for PEL_KEEP, ours' for PEL_TAKE_OURS, theirs' for
   PEL_TAKE_THEIRS, byte for byte, the track of pel_fuse for PEL_FUSE, and none for PEL_DELETED. A row that is still
   PEL_CONFLICT refuses the call, and pel_merge shows it. *length is the list's length, at most PEL_MAX_LIST_BYTES, so that many
   bytes of out always do. The bytes past the list stay.
   Asks 9 to 16 of base, of ours and of theirs, 17, 18, 19, 21, 22, 20. */
uint32_t pel_merge_list(const uint8_t *base, size_t base_len, const uint8_t *ours, size_t ours_len,
                        const uint8_t *theirs, size_t theirs_len, double floor, double gate, uint8_t *rows,
                        size_t rows_len, uint8_t *out, size_t out_len, size_t *full, size_t *half, size_t *single,
                        size_t *length);
/* The winning record of a row of four bytes: its list, PEL_OURS or PEL_THEIRS, and its start and length there. All three are 0
   where there is none: another verdict (a fused track is in neither list), no such track, a list that is refused, a row of
   another length. Asks nothing. */
void pel_winner(const uint8_t *ours, size_t ours_len, const uint8_t *theirs, size_t theirs_len, const uint8_t *row,
                size_t row_len, uint32_t *list, size_t *start, size_t *length);

#ifdef __cplusplus
}
#endif

#endif
