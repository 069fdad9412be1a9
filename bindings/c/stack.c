/* The stack that a call takes, in bytes: each runs on a stack of its own that was painted before, and what is painted no more
 * is counted. The caller's own frame is taken off, by a call that does nothing.
 *
 *     cc -Wall -Wextra -Werror -I include bindings/c/stack.c target/staticlib/libcapi.a -o stack && ./stack
 */
#define _XOPEN_SOURCE 700
#include <pelosumba.h>
#include <stdio.h>
#include <string.h>
#include <ucontext.h>

enum { SIDE = PEL_MAX_SIDE, ENTRIES = SIDE * SIDE, FIELDS = SIDE + SIDE * (SIDE + 1) / 2, STACK = 1 << 20, PAINT = 0xA5 };

static const double unit[9] = {1, 0, 0, 0, 1, 0, 0, 0, 1};
static double a[ENTRIES], x[SIDE], out[ENTRIES], more[ENTRIES], track[FIELDS], values[PEL_MAX_VALUES], first, second;
static uint8_t list[PEL_MAX_LIST_BYTES], ours[PEL_MAX_LIST_BYTES], theirs[PEL_MAX_LIST_BYTES], written[PEL_MAX_LIST_BYTES];
static uint8_t rows[PEL_MAX_ROW_BYTES];
static size_t list_len, ours_len, theirs_len, number, other, third, fourth;
static uint32_t bits, fused, answer;

#define A a, ENTRIES
#define X x, SIDE
#define OUT out, ENTRIES
#define VECTOR out, SIDE

static void nothing(void) { answer = 0; }
static void mat_mul(void) { answer = pel_mat_mul(A, A, SIDE, SIDE, SIDE, OUT); }
static void mat_transpose(void) { answer = pel_mat_transpose(A, SIDE, SIDE, OUT); }
static void mat_ata(void) { answer = pel_mat_ata(A, SIDE, SIDE, OUT); }
static void mat_symmetrize(void) { answer = pel_mat_symmetrize(A, SIDE, OUT); }
static void mat_vec_mul(void) { answer = pel_mat_vec_mul(A, X, SIDE, VECTOR); }
static void mat_trace(void) { answer = pel_mat_trace(A, SIDE, &first); }
static void mat_trace_product(void) { answer = pel_mat_trace_product(A, A, SIDE, &first); }
static void mat_trace_cube(void) { answer = pel_mat_trace_cube(A, A, SIDE, &first); }
static void quadratic_form(void) { answer = pel_mat_quadratic_form(X, A, SIDE, &first); }
static void with_inv(void) { answer = pel_mahalanobis_distance_squared_with_inv(X, X, A, SIDE, &first); }
static void tikhonov(void) { answer = pel_tikhonov(A, 0.5, SIDE, OUT); }
static void mat_frobenius(void) { answer = pel_mat_frobenius(A, SIDE, SIDE, &first); }
static void vec_norm(void) { answer = pel_vec_norm(X, SIDE, &first); }
static void mat_cholesky(void) { answer = pel_mat_cholesky(A, SIDE, OUT); }
static void row_inf_norms(void) { answer = pel_row_inf_norms(A, SIDE, VECTOR); }
static void mat_solve(void) { answer = pel_mat_solve(A, X, SIDE, VECTOR); }
static void mat_inv(void) { answer = pel_mat_inv(A, SIDE, OUT); }
static void mat_det(void) { answer = pel_mat_det(A, SIDE, &first); }
static void mahalanobis(void) { answer = pel_mahalanobis_distance_squared(X, X, A, SIDE, &first); }
static void eigen(void) { answer = pel_mat_symmetric_eigen(A, SIDE, VECTOR, more, ENTRIES); }
static void nearest_psd(void) { answer = pel_nearest_psd(A, 25.0, SIDE, OUT, &number, &first, &bits); }
static void eigenvalue_floor(void) { answer = pel_eigenvalue_floor(A, 25.0, SIDE, OUT, &number, &first, &bits); }
static void eigenvector_max(void) { answer = pel_mat_eigenvector_max(A, SIDE, 100, 1e-9, VECTOR, &first); }
static void singular_value(void) { answer = pel_mat_largest_singular_value(A, SIDE, 100, 1e-9, &first); }
static void condition_number(void) { answer = pel_condition_number(A, SIDE, &first); }
static void with_report(void) { answer = pel_tikhonov_with_report(A, 0.5, SIDE, OUT, &first, &second); }
static void compare(void) { answer = pel_compare(X, X, A, A, SIDE, 1.0, 16.0, &bits, &first); }
static void fuse(void) { answer = pel_fuse(track, FIELDS, track, FIELDS, track, FIELDS, SIDE, 25.0, out, FIELDS, &fused); }
static void mat3_det(void) { answer = pel_mat3_det(unit, 9, &first); }
static void mat3_inv(void) { answer = pel_mat3_inv(unit, 9, out, 9); }
static void mat3_solve(void) { answer = pel_mat3_solve(unit, 9, x, 3, out, 3); }
static void read_list(void) { answer = pel_read_list(list, list_len, values, PEL_MAX_VALUES, &number, &other); }
static void write_list(void)
{
    answer = pel_write_list(PEL_MAX_TRACKS, PEL_MAX_DIMENSION, values, PEL_MAX_VALUES, written, sizeof written, &number);
}
static void record(void) { pel_record(list, list_len, 2, &number, &other); }
static void merge(void)
{
    answer = pel_merge(list, list_len, ours, ours_len, theirs, theirs_len, 4.0, 16.0, rows, sizeof rows, &number, &other,
                       &third);
}
static void merge_list(void)
{
    answer = pel_merge_list(list, list_len, ours, ours_len, theirs, theirs_len, 4.0, 16.0, rows, sizeof rows, written,
                            sizeof written, &number, &other, &third, &fourth);
}
static void winner(void)
{
    static const uint8_t row[4] = {PEL_NO_TRACK, 0, PEL_NO_TRACK, PEL_TAKE_OURS};
    pel_winner(list, list_len, list, list_len, row, 4, &bits, &number, &other);
}

static const struct {
    const char *name;
    void (*call)(void);
} CALLS[] = {
    {"mat_mul", mat_mul},
    {"mat_transpose", mat_transpose},
    {"mat_ata", mat_ata},
    {"mat_symmetrize", mat_symmetrize},
    {"mat_vec_mul", mat_vec_mul},
    {"mat_trace", mat_trace},
    {"mat_trace_product", mat_trace_product},
    {"mat_trace_cube", mat_trace_cube},
    {"mat_quadratic_form", quadratic_form},
    {"mahalanobis_distance_squared_with_inv", with_inv},
    {"tikhonov", tikhonov},
    {"mat_frobenius", mat_frobenius},
    {"vec_norm", vec_norm},
    {"mat_cholesky", mat_cholesky},
    {"row_inf_norms", row_inf_norms},
    {"mat_solve", mat_solve},
    {"mat_inv", mat_inv},
    {"mat_det", mat_det},
    {"mahalanobis_distance_squared", mahalanobis},
    {"mat_symmetric_eigen", eigen},
    {"nearest_psd", nearest_psd},
    {"eigenvalue_floor", eigenvalue_floor},
    {"mat_eigenvector_max", eigenvector_max},
    {"mat_largest_singular_value", singular_value},
    {"condition_number", condition_number},
    {"tikhonov_with_report", with_report},
    {"compare", compare},
    {"fuse", fuse},
    {"mat3_det", mat3_det},
    {"mat3_inv", mat3_inv},
    {"mat3_solve", mat3_solve},
    {"read_list", read_list},
    {"write_list", write_list},
    {"record", record},
    {"merge", merge},
    {"merge_list", merge_list},
    {"winner", winner},
};

static unsigned char stack[STACK];
static ucontext_t caller, callee;

/* How far down a call goes on a stack that was painted before it. */
static size_t depth(void (*call)(void))
{
    memset(stack, PAINT, STACK);
    getcontext(&callee);
    callee.uc_stack.ss_sp = stack;
    callee.uc_stack.ss_size = STACK;
    callee.uc_link = &caller;
    makecontext(&callee, call, 0);
    swapcontext(&caller, &callee);
    size_t painted = 0;
    while (painted < STACK && stack[painted] == PAINT) {
        painted++;
    }
    return STACK - painted;
}

/* The largest list, and its length: tracks in a row, moved by some distance, with no field left out. Their covariance has an
 * inverse, and its eigenvalues are below the floor of the merges. */
static size_t write_tracks(double moved, uint8_t *to)
{
    size_t length = 0;
    for (size_t t = 0, at = 0; t < PEL_MAX_TRACKS; t++) {
        for (size_t i = 0; i < PEL_MAX_DIMENSION; i++) {
            values[at++] = (double)(1 + t) + moved;
        }
        for (size_t i = 0; i < PEL_MAX_DIMENSION; i++) {
            for (size_t j = 0; j <= i; j++) {
                values[at++] = i == j ? 1.5 : 0.25;
            }
        }
    }
    answer = pel_write_list(PEL_MAX_TRACKS, PEL_MAX_DIMENSION, values, PEL_MAX_VALUES, to, PEL_MAX_LIST_BYTES, &length);
    return length;
}

int main(void)
{
    for (size_t i = 0; i < SIDE; i++) {
        x[i] = track[i] = (double)i;
        for (size_t j = 0; j < SIDE; j++) {
            a[i * SIDE + j] = i == j ? 20.0 + (double)i : 1.0 / (double)(1 + i + j);
        }
    }
    for (size_t i = 0, at = SIDE; i < SIDE; i++) {
        for (size_t j = 0; j <= i; j++) {
            track[at++] = a[i * SIDE + j];
        }
    }
    ours_len = write_tracks(0.125, ours);
    theirs_len = write_tracks(-0.125, theirs);
    list_len = write_tracks(0.0, list);
    if (answer != PEL_ANSWERED) {
        printf("write_list: refused by %u\n", (unsigned)answer);
        return 1;
    }
    const size_t frame = depth(nothing);
    for (size_t i = 0; i < sizeof CALLS / sizeof CALLS[0]; i++) {
        const size_t bytes = depth(CALLS[i].call) - frame;
        if (answer != PEL_ANSWERED) {
            printf("%s: refused by %u\n", CALLS[i].name, (unsigned)answer);
            return 1;
        }
        printf("%s %zu\n", CALLS[i].name, bytes);
    }
    /* Where nothing is fused, the last steps of a fusion are not measured. */
    if (fused != 1 || rows[3] != PEL_FUSE) {
        printf("no track was fused\n");
        return 1;
    }
    return 0;
}
