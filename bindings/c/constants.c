/* The header's numbers beside the library's own answers: every size, verdict, kind, winner and question is met by a call, and
 * every call of the header is made. C99 and C++ take this file.
 *
 *     cc -Wall -Wextra -Werror -I include bindings/c/constants.c target/staticlib/libcapi.a -o constants && ./constants
 */
#include <pelosumba.h>
#include <float.h>
#include <math.h>
#include <stdio.h>
#include <string.h>

static unsigned held, wrong;

static void compare(const char *what, unsigned long found, const char *name, unsigned long number)
{
    held += found == number;
    if (found != number) {
        printf("%s: %lu, and %s is %lu\n", what, found, name, number);
        wrong++;
    }
}

#define IS(found, name) compare(#found, (unsigned long)(found), #name, (unsigned long)(name))

/* ---- matrices */

enum { ROOM = (PEL_MAX_SIDE + 1) * (PEL_MAX_SIDE + 1) + 1, CALLS = 28 };

static double a[ROOM], x[ROOM], out[ROOM], more[ROOM], first, second;
static uint32_t bits;
static size_t number;

/* Call number `call` on the identity of order n, with its last slice longer than it should be. */
static uint32_t on_matrix(unsigned call, size_t n, size_t longer)
{
    const size_t s = n * n, t = s + longer, v = n + longer, f = n + n * (n + 1) / 2;
    switch (call) {
    case 0: return pel_mat_mul(a, s, a, s, n, n, n, out, t);
    case 1: return pel_mat_transpose(a, s, n, n, out, t);
    case 2: return pel_mat_ata(a, s, n, n, out, t);
    case 3: return pel_mat_symmetrize(a, s, n, out, t);
    case 4: return pel_mat_vec_mul(a, s, x, n, n, out, v);
    case 5: return pel_mat_trace(a, t, n, &first);
    case 6: return pel_mat_trace_product(a, s, a, t, n, &first);
    case 7: return pel_mat_trace_cube(a, s, a, t, n, &first);
    case 8: return pel_mat_quadratic_form(x, n, a, t, n, &first);
    case 9: return pel_mahalanobis_distance_squared_with_inv(x, n, x, n, a, t, n, &first);
    case 10: return pel_tikhonov(a, s, 0.5, n, out, t);
    case 11: return pel_mat_frobenius(a, t, n, n, &first);
    case 12: return pel_vec_norm(x, v, n, &first);
    case 13: return pel_mat_cholesky(a, s, n, out, t);
    case 14: return pel_row_inf_norms(a, s, n, out, v);
    case 15: return pel_mat_solve(a, s, x, n, n, out, v);
    case 16: return pel_mat_inv(a, s, n, out, t);
    case 17: return pel_mat_det(a, t, n, &first);
    case 18: return pel_mahalanobis_distance_squared(x, n, x, n, a, t, n, &first);
    case 19: return pel_mat_symmetric_eigen(a, s, n, out, n, more, t);
    case 20: return pel_nearest_psd(a, s, 0.5, n, out, t, &number, &first, &bits);
    case 21: return pel_eigenvalue_floor(a, s, 0.5, n, out, t, &number, &first, &bits);
    case 22: return pel_mat_eigenvector_max(a, s, n, 10, 1e-9, out, v, &first);
    case 23: return pel_mat_largest_singular_value(a, t, n, 10, 1e-9, &first);
    case 24: return pel_condition_number(a, t, n, &first);
    case 25: return pel_tikhonov_with_report(a, s, 0.5, n, out, t, &first, &second);
    case 26: return pel_compare(x, n, x, n, a, s, a, t, n, 1.0, 16.0, &bits, &first);
    default: return pel_fuse(a, f, a, f, a, f, n, 1.0, out, f + longer, &bits);
    }
}

static void matrices(void)
{
    for (unsigned call = 0; call < CALLS; call++) {
        memset(a, 0, sizeof a);
        for (size_t i = 0; i < PEL_MAX_SIDE; i++) {
            a[i * PEL_MAX_SIDE + i] = x[i] = 1.0;
        }
        IS(on_matrix(call, PEL_MAX_SIDE, 0), PEL_ANSWERED);
        IS(on_matrix(call, PEL_MAX_SIDE, 1), PEL_QUESTION_LENGTH);
        IS(on_matrix(call, PEL_MAX_SIDE + 1, 0), PEL_QUESTION_SIDE);
        IS(on_matrix(call, 0, 0), PEL_QUESTION_SIDE);
    }
    const double infinite[1] = {HUGE_VAL}, great[4] = {DBL_MAX, DBL_MAX, DBL_MAX, DBL_MAX}, tiny[1] = {1e-151};
    const double singular[4] = {1, 2, 2, 4}, negative[1] = {-1}, ones[9] = {1, 1, 1, 1, 1, 1, 1, 1, 1};
    const double unit[9] = {1, 0, 0, 0, 1, 0, 0, 0, 1};
    IS(pel_nearest_psd(infinite, 1, 0.0, 1, out, 1, &number, &first, &bits), PEL_QUESTION_FINITE_ENTRIES);
    IS(pel_mat_symmetric_eigen(great, 4, 2, out, 2, more, 4), PEL_QUESTION_FINITE_EIGENVALUES);
    IS(pel_mat_inv(tiny, 1, 1, out, 1), PEL_QUESTION_ROW_NORM);
    IS(pel_mat_inv(singular, 4, 2, out, 4), PEL_QUESTION_PIVOT_RATIO);
    IS(pel_mat_cholesky(negative, 1, 1, out, 1), PEL_QUESTION_CHOLESKY_PIVOT);
    IS(pel_mat3_inv(ones, 9, out, 9), PEL_QUESTION_DETERMINANT);
    IS(pel_mat3_solve(ones, 9, x, 3, out, 3), PEL_QUESTION_DETERMINANT);
    IS(pel_mat3_det(unit, 9, &first), PEL_ANSWERED);
    IS(pel_abs(-first) + pel_max(first, 0.0) + pel_sqrt(first) + pel_value(first) + pel_constant(first), 5);
}

static void comparisons(void)
{
    const double here[1] = {0}, there[1] = {1}, far_off[1] = {1e300}, variance[1] = {1};
    uint32_t kind;
    IS(pel_compare(here, 1, there, 1, variance, 1, variance, 1, 1, 1.0, 0.5, &kind, &first), PEL_ANSWERED);
    IS(kind, PEL_NEAR);
    IS(pel_compare(here, 1, there, 1, variance, 1, variance, 1, 1, 1.0, 0.4, &kind, &first), PEL_ANSWERED);
    IS(kind, PEL_FAR);
    IS(pel_compare(here, 1, far_off, 1, variance, 1, variance, 1, 1, 1.0, 0.4, &kind, &first), PEL_ANSWERED);
    IS(kind, PEL_NO_DISTANCE);
    IS(pel_compare(here, 1, there, 1, variance, 1, variance, 1, 1, 0.0, 0.4, &kind, &first), PEL_QUESTION_FLOOR_AND_GATE);
}

/* Tracks of dimension 1: a state and a variance. */
static void fusions(void)
{
    const double base[2] = {10, 1}, ours[2] = {11, 1}, theirs[2] = {12, 1}, certain[2] = {11, 0};
    double track[2] = {7, 7};
    uint32_t fused = 7;
    IS(pel_fuse(base, 2, ours, 2, theirs, 2, 0, 1.0, track, 2, &fused), PEL_QUESTION_SIDE);
    IS(pel_fuse(base, 2, ours, 2, theirs, 2, PEL_MAX_SIDE + 1, 1.0, track, 2, &fused), PEL_QUESTION_SIDE);
    IS(pel_fuse(base, 1, ours, 2, theirs, 2, 1, 1.0, track, 2, &fused), PEL_QUESTION_LENGTH);
    IS(pel_fuse(base, 2, ours, 1, theirs, 2, 1, 1.0, track, 2, &fused), PEL_QUESTION_LENGTH);
    IS(pel_fuse(base, 2, ours, 2, theirs, 1, 1, 1.0, track, 2, &fused), PEL_QUESTION_LENGTH);
    IS(pel_fuse(base, 2, ours, 2, theirs, 2, 1, 1.0, track, 1, &fused), PEL_QUESTION_LENGTH);
    IS(pel_fuse(base, 2, ours, 2, theirs, 2, 2, 1.0, track, 2, &fused), PEL_QUESTION_LENGTH);
    IS(fused, 7);
    /* A variance of 0 has no inverse. */
    IS(pel_fuse(certain, 2, certain, 2, certain, 2, 1, 1.0, track, 2, &fused), PEL_ANSWERED);
    IS(fused, 0);
    fused = 7;
    IS(pel_fuse(base, 2, certain, 2, theirs, 2, 1, 1.0, track, 2, &fused), PEL_ANSWERED);
    IS(fused, 0);
    IS(track[0] == 7 && track[1] == 7, 1);
    IS(pel_fuse(base, 2, ours, 2, theirs, 2, 1, 1.0, track, 2, &fused), PEL_ANSWERED);
    IS(fused, 1);
    IS(track[0] == 13 && track[1] == 1, 1);
    /* The floor raises the variance and not the state; a floor that is no number raises nothing. */
    IS(pel_fuse(base, 2, ours, 2, theirs, 2, 1, 4.0, track, 2, &fused), PEL_ANSWERED);
    IS(track[0] == 13 && track[1] == 4, 1);
    IS(pel_fuse(base, 2, ours, 2, theirs, 2, 1, HUGE_VAL - HUGE_VAL, track, 2, &fused), PEL_ANSWERED);
    IS(track[0] == 13 && track[1] == 1, 1);
}

/* ---- lists */

static double values[PEL_MAX_VALUES + 100];
static uint8_t list[PEL_MAX_LIST_BYTES], merged[PEL_MAX_LIST_BYTES], rows[PEL_MAX_ROW_BYTES];
static size_t count, dimension, length, full, half, single;

static uint32_t write_ones(size_t tracks, size_t d, size_t out_len)
{
    return pel_write_list(tracks, d, values, tracks * (d + d * (d + 1) / 2), list, out_len, &length);
}

static uint32_t read_bytes(const char *bytes, size_t bytes_len)
{
    return pel_read_list((const uint8_t *)bytes, bytes_len, values, PEL_MAX_VALUES, &count, &dimension);
}

static void lists(void)
{
    for (size_t i = 0; i < sizeof values / sizeof values[0]; i++) {
        values[i] = 1.0;
    }
    IS(write_ones(PEL_MAX_TRACKS + 1, 1, PEL_MAX_LIST_BYTES), PEL_QUESTION_COUNT);
    IS(write_ones(1, PEL_MAX_DIMENSION + 1, PEL_MAX_LIST_BYTES), PEL_QUESTION_DIMENSION);
    IS(write_ones(PEL_MAX_TRACKS, PEL_MAX_DIMENSION, PEL_MAX_LIST_BYTES - 1), PEL_QUESTION_LIST_BUFFER);
    IS(write_ones(PEL_MAX_TRACKS, PEL_MAX_DIMENSION, PEL_MAX_LIST_BYTES), PEL_ANSWERED);
    IS(length, PEL_MAX_LIST_BYTES);
    IS(pel_read_list(list, length, values, PEL_MAX_VALUES - 1, &count, &dimension), PEL_QUESTION_LENGTH);
    IS(pel_read_list(list, length, values, PEL_MAX_VALUES, &count, &dimension), PEL_ANSWERED);
    IS(count, PEL_MAX_TRACKS);
    IS(dimension, PEL_MAX_DIMENSION);
    IS(read_bytes("", 0), PEL_QUESTION_HEADER);
    IS(read_bytes("\1\1", 2), PEL_QUESTION_PRESENT);
    IS(read_bytes("\1\1\6", 3), PEL_QUESTION_SPARE_BITS);
    IS(read_bytes("\1\1\1\0\0\0\0\0\0\xF0\x7F", 11), PEL_QUESTION_FINITE_FIELD);
    IS(read_bytes("\1\1\1\0\0\0\0\0\0\0\0", 11), PEL_QUESTION_NONZERO_FIELD);
    IS(read_bytes("\0\1\0", 3), PEL_QUESTION_NOTHING_AFTER);

    size_t start;
    pel_record(list, length, 2, &start, &count);
    IS(start, 2);
    IS(count, (PEL_MAX_LIST_BYTES - 2) / PEL_MAX_TRACKS);
    pel_record(list, length, 3, &start, &count);
    IS(start, 3);
    IS(count, 0);
}

/* ---- merges */

/* A list of five tracks of dimension 1 with variances of 1, and its length. */
static size_t five(double p, double q, double r, double s, double t, uint8_t *to)
{
    const double fields[10] = {p, 1, q, 1, r, 1, s, 1, t, 1};
    pel_write_list(5, 1, fields, 10, to, 100, &length);
    return length;
}

static void merges(void)
{
    /* Kept, changed in ours, changed in theirs, deleted in both, changed in both; and a new one in both, not alike. */
    uint8_t base[100], ours[100], theirs[100];
    const size_t base_len = five(10, 30, 50, 70, 90, base), ours_len = five(10, 31, 50, 91, 200, ours);
    const size_t theirs_len = five(10, 30, 52, 92, 201, theirs);
    const uint8_t expected[24] = {
        0, 0, 0, PEL_KEEP, 1, 1, 1, PEL_TAKE_OURS, 2, 2, 2, PEL_TAKE_THEIRS, 3, PEL_NO_TRACK, PEL_NO_TRACK, PEL_DELETED,
        4, 3, 3, PEL_FUSE, PEL_NO_TRACK, 4, 4, PEL_CONFLICT,
    };
    uint32_t winner;
    size_t start;
    IS(pel_merge(base, base_len, ours, ours_len, theirs, theirs_len, 1.0, 16.0, rows, PEL_MAX_ROW_BYTES, &full, &half,
                 &single), PEL_ANSWERED);
    IS(4 * (full + half + single), sizeof expected);
    for (size_t i = 0; i < sizeof expected; i++) {
        IS(rows[i], expected[i]);
    }
    pel_winner(ours, ours_len, theirs, theirs_len, rows, 4, &winner, &start, &length);
    IS(winner, PEL_NOBODY);
    pel_winner(ours, ours_len, theirs, theirs_len, rows + 4, 4, &winner, &start, &length);
    IS(winner, PEL_OURS);
    pel_winner(ours, ours_len, theirs, theirs_len, rows + 8, 4, &winner, &start, &length);
    IS(winner, PEL_THEIRS);
    pel_winner(ours, ours_len, theirs, theirs_len, rows + 16, 4, &winner, &start, &length);
    IS(winner, PEL_NOBODY);
    IS(start + length, 0);

    const uint8_t plane[2] = {0, 2};
    IS(pel_merge(base, base_len, ours, ours_len, plane, 2, 1.0, 16.0, rows, PEL_MAX_ROW_BYTES, &full, &half, &single),
       PEL_QUESTION_ONE_DIMENSION);
    IS(write_ones(PEL_MAX_TRACKS, 1, PEL_MAX_LIST_BYTES), PEL_ANSWERED);
    IS(pel_merge(list, length, list, length, list, length, 1.0, 16.0, rows, PEL_MAX_ROW_BYTES - 1, &full, &half, &single),
       PEL_QUESTION_ROW_BUFFER);
    IS(pel_merge(list, length, list, length, list, length, 1.0, 16.0, rows, PEL_MAX_ROW_BYTES, &full, &half, &single),
       PEL_ANSWERED);
}

/* ---- merges into a list */

static uint32_t into_list(const uint8_t *base, size_t base_len, const uint8_t *ours, size_t ours_len, const uint8_t *theirs,
                          size_t theirs_len, size_t out_len)
{
    return pel_merge_list(base, base_len, ours, ours_len, theirs, theirs_len, 1.0, 16.0, rows, PEL_MAX_ROW_BYTES, merged,
                          out_len, &full, &half, &single, &length);
}

static void merged_lists(void)
{
    /* Added on both sides, near each other and not alike. The length of the buffer is asked for last. */
    uint8_t ours[100], theirs[100];
    const uint8_t none[2] = {0, 1};
    const size_t ours_len = five(10, 30, 50, 70, 90, ours), theirs_len = five(11, 31, 51, 71, 91, theirs);
    IS(into_list(none, 2, ours, ours_len, theirs, theirs_len, 0), PEL_QUESTION_NO_CONFLICT);

    /* As many tracks of ours as a list can have, without and with others of theirs. */
    IS(write_ones(PEL_MAX_TRACKS, 1, PEL_MAX_LIST_BYTES), PEL_ANSWERED);
    const size_t ones_len = length;
    IS(into_list(none, 2, list, ones_len, none, 2, PEL_MAX_LIST_BYTES), PEL_ANSWERED);
    IS(merged[0], PEL_MAX_TRACKS);
    IS(into_list(none, 2, list, ones_len, theirs, theirs_len, 0), PEL_QUESTION_MERGED_COUNT);

    /* The largest list, kept. */
    IS(write_ones(PEL_MAX_TRACKS, PEL_MAX_DIMENSION, PEL_MAX_LIST_BYTES), PEL_ANSWERED);
    const size_t list_len = length;
    IS(into_list(list, list_len, list, list_len, list, list_len, PEL_MAX_LIST_BYTES - 1), PEL_QUESTION_LIST_BUFFER);
    IS(into_list(list, list_len, list, list_len, list, list_len, PEL_MAX_LIST_BYTES), PEL_ANSWERED);
    IS(length, PEL_MAX_LIST_BYTES);
    IS(memcmp(merged, list, PEL_MAX_LIST_BYTES), 0);
}

/* Lists of one track of dimension 1, at 10 in base, 11 in ours and 12 in theirs, with one variance. */
static uint32_t changed_on_both(double variance, size_t out_len)
{
    const double at_10[2] = {10, variance}, at_11[2] = {11, variance}, at_12[2] = {12, variance};
    uint8_t base[20], ours[20], theirs[20];
    size_t base_len, ours_len, theirs_len;
    IS(pel_write_list(1, 1, at_10, 2, base, sizeof base, &base_len), PEL_ANSWERED);
    IS(pel_write_list(1, 1, at_11, 2, ours, sizeof ours, &ours_len), PEL_ANSWERED);
    IS(pel_write_list(1, 1, at_12, 2, theirs, sizeof theirs, &theirs_len), PEL_ANSWERED);
    return into_list(base, base_len, ours, ours_len, theirs, theirs_len, out_len);
}

static void fused_lists(void)
{
    double track[2];
    IS(changed_on_both(1, PEL_MAX_LIST_BYTES), PEL_ANSWERED);
    IS(full, 1);
    IS(half + single, 0);
    IS(rows[0] + rows[1] + rows[2], 0);
    IS(rows[3], PEL_FUSE);
    IS(pel_read_list(merged, length, track, 2, &count, &dimension), PEL_ANSWERED);
    IS(count, 1);
    IS(dimension, 1);
    IS(track[0] == 13 && track[1] == 1, 1);
    IS(changed_on_both(1, length - 1), PEL_QUESTION_LIST_BUFFER);
    /* Variances of 0 have no inverse: the row stays a conflict. */
    IS(changed_on_both(0, PEL_MAX_LIST_BYTES), PEL_QUESTION_NO_CONFLICT);
}

int main(void)
{
    char version[40];
    snprintf(version, sizeof version, "%d.%d.%d", PEL_VERSION_MAJOR, PEL_VERSION_MINOR, PEL_VERSION_PATCH);
    IS(strcmp(version, PEL_VERSION), 0);
    matrices();
    comparisons();
    fusions();
    lists();
    merges();
    merged_lists();
    fused_lists();
    printf("the header's numbers: %u as the library has them, %u not\n", held, wrong);
    return wrong != 0;
}
