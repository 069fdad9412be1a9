/* Empty slices from C: every slice of every call, alone and with each of the others, has the length 0 and a null pointer, and then the
 * length 0 and another pointer. Both must answer and write the same.
 *
 *     cc -Wall -Wextra -Werror -I include bindings/c/empty.c target/staticlib/libcapi.a -o empty && ./empty
 */
#include <pelosumba.h>
#include <stdio.h>
#include <string.h>

/* Which slices of a call are empty, and whether by a null pointer. */
static unsigned empty;
static int null;

#define IS_EMPTY(k) (empty >> (k)&1)
#define SLICE(k, pointer, length) (IS_EMPTY(k) && null ? NULL : (pointer)), (IS_EMPTY(k) ? 0 : (length))

/* What is read: a covariance of order 3, also taken for the nine fields of a track of dimension 3, and lists of dimension 1 with
 * one track and with none. */
static const double in[9] = {4, 1, 0, 1, 3, 1, 0, 1, 2};
static const uint8_t list[11] = {1, 1, 2, 0, 0, 0, 0, 0, 0, 0xF0, 0x3F};
static const uint8_t none[2] = {0, 1};
static const uint8_t row[4] = {255, 0, 255, 1};

/* What is written; no bytes lie between the fields. */
static struct written {
    uint32_t answer, kind, mask, spare;
    double numbers[2], out[9], more[9];
    size_t sizes[4];
    uint8_t bytes[24], list[24];
} w;

#define A SLICE(0, in, 9)
#define OUT(k) SLICE(k, w.out, 9)
#define N (&w.numbers[0])
#define M (&w.numbers[1])

typedef uint32_t call(void);
static uint32_t mul(void) { return pel_mat_mul(A, SLICE(1, in, 9), 3, 3, 3, OUT(2)); }
static uint32_t transpose(void) { return pel_mat_transpose(A, 3, 3, OUT(1)); }
static uint32_t ata(void) { return pel_mat_ata(A, 3, 3, OUT(1)); }
static uint32_t symmetrize(void) { return pel_mat_symmetrize(A, 3, OUT(1)); }
static uint32_t vec_mul(void) { return pel_mat_vec_mul(A, SLICE(1, in, 3), 3, SLICE(2, w.out, 3)); }
static uint32_t trace(void) { return pel_mat_trace(A, 3, N); }
static uint32_t trace_product(void) { return pel_mat_trace_product(A, SLICE(1, in, 9), 3, N); }
static uint32_t trace_cube(void) { return pel_mat_trace_cube(A, SLICE(1, in, 9), 3, N); }
static uint32_t form(void) { return pel_mat_quadratic_form(SLICE(0, in, 3), SLICE(1, in, 9), 3, N); }
static uint32_t with_inv(void)
{
    return pel_mahalanobis_distance_squared_with_inv(SLICE(0, in, 3), SLICE(1, in + 3, 3), SLICE(2, in, 9), 3, N);
}
static uint32_t damped(void) { return pel_tikhonov(A, 0.5, 3, OUT(1)); }
static uint32_t frobenius(void) { return pel_mat_frobenius(A, 3, 3, N); }
static uint32_t norm(void) { return pel_vec_norm(SLICE(0, in, 3), 3, N); }
static uint32_t cholesky(void) { return pel_mat_cholesky(A, 3, OUT(1)); }
static uint32_t norms(void) { return pel_row_inf_norms(A, 3, SLICE(1, w.out, 3)); }
static uint32_t solve(void) { return pel_mat_solve(A, SLICE(1, in, 3), 3, SLICE(2, w.out, 3)); }
static uint32_t inv(void) { return pel_mat_inv(A, 3, OUT(1)); }
static uint32_t det(void) { return pel_mat_det(A, 3, N); }
static uint32_t distance(void)
{
    return pel_mahalanobis_distance_squared(SLICE(0, in, 3), SLICE(1, in + 3, 3), SLICE(2, in, 9), 3, N);
}
static uint32_t eigen(void) { return pel_mat_symmetric_eigen(A, 3, SLICE(1, w.out, 3), SLICE(2, w.more, 9)); }
static uint32_t psd(void) { return pel_nearest_psd(A, 2.5, 3, OUT(1), &w.sizes[0], N, &w.mask); }
static uint32_t raised(void) { return pel_eigenvalue_floor(A, 2.5, 3, OUT(1), &w.sizes[0], N, &w.mask); }
static uint32_t power(void) { return pel_mat_eigenvector_max(A, 3, 20, 1e-9, SLICE(1, w.out, 3), N); }
static uint32_t singular(void) { return pel_mat_largest_singular_value(A, 3, 20, 1e-9, N); }
static uint32_t condition(void) { return pel_condition_number(A, 3, N); }
static uint32_t report(void) { return pel_tikhonov_with_report(A, 0.5, 3, OUT(1), N, M); }
static uint32_t compare(void)
{
    return pel_compare(SLICE(0, in, 3), SLICE(1, in + 3, 3), SLICE(2, in, 9), SLICE(3, in, 9), 3, 1.0, 16.0, &w.kind, N);
}
static uint32_t fuse(void)
{
    return pel_fuse(SLICE(0, in, 9), SLICE(1, in, 9), SLICE(2, in, 9), 3, 1.0, OUT(3), &w.kind);
}
static uint32_t det3(void) { return pel_mat3_det(A, N); }
static uint32_t inv3(void) { return pel_mat3_inv(A, OUT(1)); }
static uint32_t solve3(void) { return pel_mat3_solve(A, SLICE(1, in, 3), SLICE(2, w.out, 3)); }
static uint32_t reading(void)
{
    return pel_read_list(SLICE(0, list, 11), SLICE(1, w.out, 2), &w.sizes[0], &w.sizes[1]);
}
static uint32_t reading_none(void)
{
    return pel_read_list(none, 2, SLICE(0, w.out, 2), &w.sizes[0], &w.sizes[1]);
}
static uint32_t writing(void) { return pel_write_list(1, 1, SLICE(0, in, 2), SLICE(1, w.bytes, 24), &w.sizes[0]); }
static uint32_t writing_none(void)
{
    return pel_write_list(0, 1, SLICE(0, in, 0), SLICE(1, w.bytes, 24), &w.sizes[0]);
}
static uint32_t record(void)
{
    pel_record(SLICE(0, list, 11), 2, &w.sizes[0], &w.sizes[1]);
    return 0;
}
static uint32_t merge(void)
{
    return pel_merge(SLICE(0, list, 11), SLICE(1, list, 11), SLICE(2, list, 11), 1.0, 16.0, SLICE(3, w.bytes, 24),
                     &w.sizes[0], &w.sizes[1], &w.sizes[2]);
}
static uint32_t merge_none(void)
{
    return pel_merge(none, 2, none, 2, none, 2, 1.0, 16.0, SLICE(0, w.bytes, 24), &w.sizes[0], &w.sizes[1],
                     &w.sizes[2]);
}
static uint32_t merge_list(void)
{
    return pel_merge_list(SLICE(0, list, 11), SLICE(1, list, 11), SLICE(2, list, 11), 1.0, 16.0, SLICE(3, w.bytes, 24),
                          SLICE(4, w.list, 24), &w.sizes[0], &w.sizes[1], &w.sizes[2], &w.sizes[3]);
}
static uint32_t merge_list_none(void)
{
    return pel_merge_list(none, 2, none, 2, none, 2, 1.0, 16.0, SLICE(0, w.bytes, 24), SLICE(1, w.list, 24), &w.sizes[0],
                          &w.sizes[1], &w.sizes[2], &w.sizes[3]);
}
static uint32_t winner(void)
{
    pel_winner(SLICE(0, list, 11), SLICE(1, list, 11), SLICE(2, row, 4), &w.kind, &w.sizes[0], &w.sizes[1]);
    return 0;
}

static const struct {
    const char *name;
    call *call;
    unsigned slices;
} CALLS[] = {
    {"mat_mul", mul, 3},
    {"mat_transpose", transpose, 2},
    {"mat_ata", ata, 2},
    {"mat_symmetrize", symmetrize, 2},
    {"mat_vec_mul", vec_mul, 3},
    {"mat_trace", trace, 1},
    {"mat_trace_product", trace_product, 2},
    {"mat_trace_cube", trace_cube, 2},
    {"mat_quadratic_form", form, 2},
    {"mahalanobis_distance_squared_with_inv", with_inv, 3},
    {"tikhonov", damped, 2},
    {"mat_frobenius", frobenius, 1},
    {"vec_norm", norm, 1},
    {"mat_cholesky", cholesky, 2},
    {"row_inf_norms", norms, 2},
    {"mat_solve", solve, 3},
    {"mat_inv", inv, 2},
    {"mat_det", det, 1},
    {"mahalanobis_distance_squared", distance, 3},
    {"mat_symmetric_eigen", eigen, 3},
    {"nearest_psd", psd, 2},
    {"eigenvalue_floor", raised, 2},
    {"mat_eigenvector_max", power, 2},
    {"mat_largest_singular_value", singular, 1},
    {"condition_number", condition, 1},
    {"tikhonov_with_report", report, 2},
    {"compare", compare, 4},
    {"fuse", fuse, 4},
    {"mat3_det", det3, 1},
    {"mat3_inv", inv3, 2},
    {"mat3_solve", solve3, 3},
    {"read_list", reading, 2},
    {"read_list of no track", reading_none, 1},
    {"write_list", writing, 2},
    {"write_list of no track", writing_none, 2},
    {"record", record, 1},
    {"merge", merge, 4},
    {"merge of no track", merge_none, 1},
    {"merge_list", merge_list, 5},
    {"merge_list of no track", merge_list_none, 2},
    {"winner", winner, 3},
};

/* What a call leaves, with memory that held other bytes before. */
static struct written left_by(call *call, int by_null)
{
    null = by_null;
    memset(&w, 0xA5, sizeof w);
    w.answer = call();
    return w;
}

int main(void)
{
    unsigned tried = 0, refused = 0, different = 0;
    for (size_t i = 0; i < sizeof CALLS / sizeof CALLS[0]; i++) {
        for (empty = 0; empty < 1u << CALLS[i].slices; empty++) {
            const struct written by_null = left_by(CALLS[i].call, 1), by_pointer = left_by(CALLS[i].call, 0);
            if (memcmp(&by_null, &by_pointer, sizeof w) != 0) {
                printf("%s, empty slices %x: a null pointer makes a difference\n", CALLS[i].name, empty);
                different++;
            }
            if (empty == 0 && by_null.answer != 0) {
                printf("%s: answers %u with all its slices\n", CALLS[i].name, (unsigned)by_null.answer);
                different++;
            }
            tried += empty != 0;
            refused += empty != 0 && by_null.answer != 0;
        }
    }
    printf("empty slices: %u cases, %u of them refused, %u differences\n", tried, refused, different);
    return different != 0;
}
