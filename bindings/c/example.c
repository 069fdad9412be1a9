/* A merge from C: three lists are written, merged and shown, with the places of winning records and with fused tracks. Then the
 * merged list is written and read.
 *
 *     cc -Wall -Wextra -Werror -I include bindings/c/example.c target/staticlib/libcapi.a -o example && ./example
 */
#include <pelosumba.h>
#include <stdio.h>

enum { TRACKS = 4 };

static const char *const VERDICTS[] = {
    [PEL_KEEP] = "keep",       [PEL_TAKE_OURS] = "take ours", [PEL_TAKE_THEIRS] = "take theirs",
    [PEL_DELETED] = "deleted", [PEL_CONFLICT] = "conflict",   [PEL_FUSE] = "fuse",
};

/* Whether a call has refused; then the question's number is shown. */
static int refused(uint32_t question)
{
    if (question != PEL_ANSWERED) {
        printf("no %u\n", (unsigned)question);
    }
    return question != PEL_ANSWERED;
}

/* A list of dimension 1 with variances of 1, and its length. */
static size_t write_list(const double *states, size_t count, uint8_t *list)
{
    double values[2 * TRACKS];
    size_t length;
    for (size_t i = 0; i < count; i++) {
        values[2 * i] = states[i];
        values[2 * i + 1] = 1.0;
    }
    return refused(pel_write_list(count, 1, values, 2 * count, list, PEL_MAX_LIST_BYTES, &length)) ? 0 : length;
}

/* The values of a list of dimension 1, two for each track, and how many tracks there are. */
static size_t read_list(const uint8_t *list, size_t list_len, double *values)
{
    size_t count, dimension;
    return refused(pel_read_list(list, list_len, values, 2 * TRACKS, &count, &dimension)) ? 0 : count;
}

static void show_index(uint8_t index)
{
    if (index == PEL_NO_TRACK) {
        printf("  -");
    } else {
        printf("%3u", (unsigned)index);
    }
}

int main(void)
{
    static uint8_t base[PEL_MAX_LIST_BYTES], ours[PEL_MAX_LIST_BYTES], theirs[PEL_MAX_LIST_BYTES];
    const size_t base_len = write_list((const double[]){10.0, 20.0, 30.0, 50.0}, 4, base);
    const size_t ours_len = write_list((const double[]){10.0, 30.0, 51.0}, 3, ours);
    const size_t theirs_len = write_list((const double[]){10.0, 20.0, 30.5, 52.0}, 4, theirs);
    double base_values[2 * TRACKS], ours_values[2 * TRACKS], theirs_values[2 * TRACKS];
    read_list(base, base_len, base_values);
    read_list(ours, ours_len, ours_values);
    read_list(theirs, theirs_len, theirs_values);

    uint8_t rows[PEL_MAX_ROW_BYTES];
    size_t full, half, single;
    if (refused(pel_merge(base, base_len, ours, ours_len, theirs, theirs_len, 1.0, 16.0, rows, sizeof rows, &full, &half,
                          &single))) {
        return 1;
    }
    for (size_t r = 0; r < full + half + single; r++) {
        const uint8_t *row = rows + 4 * r;
        uint32_t list;
        size_t start, length;
        pel_winner(ours, ours_len, theirs, theirs_len, row, 4, &list, &start, &length);
        show_index(row[0]);
        show_index(row[1]);
        show_index(row[2]);
        printf("  %s", VERDICTS[row[3]]);
        if (list != PEL_NOBODY) {
            printf(", %zu bytes of %s from %zu on", length, list == PEL_OURS ? "ours" : "theirs", start);
        }
        /* The floor is that of the merge. */
        double track[2];
        uint32_t fused = 0;
        if (row[3] == PEL_FUSE && !refused(pel_fuse(base_values + 2 * row[0], 2, ours_values + 2 * row[1], 2,
                                                    theirs_values + 2 * row[2], 2, 1, 1.0, track, 2, &fused)) && fused) {
            printf(", at %.1f with variance %.1f", track[0], track[1]);
        }
        printf("\n");
    }
    printf("%zu of three tracks, %zu of two, %zu of one\n", full, half, single);

    /* The same merge, and the list of what its rows keep, take and fuse. */
    static uint8_t merged[PEL_MAX_LIST_BYTES];
    size_t merged_len;
    if (refused(pel_merge_list(base, base_len, ours, ours_len, theirs, theirs_len, 1.0, 16.0, rows, sizeof rows, merged,
                               sizeof merged, &full, &half, &single, &merged_len))) {
        return 1;
    }
    printf("the merged list, %zu bytes:", merged_len);
    double values[2 * TRACKS];
    const size_t count = read_list(merged, merged_len, values);
    for (size_t i = 0; i < count; i++) {
        printf(" %.1f", values[2 * i]);
    }
    printf("\n");
    return 0;
}
