#include <pelosumba.h>
#include <stdio.h>

int main(void)
{
    const double before[] = {10, 1, 20, 1}, after[] = {20.5, 1}; /* state, variance: one collar goes, one moves */
    uint8_t base[50], ours[50], rows[PEL_MAX_ROW_BYTES];
    size_t b, o, full, half, single;
    pel_write_list(2, 1, before, 4, base, sizeof base, &b);
    pel_write_list(1, 1, after, 2, ours, sizeof ours, &o);
    uint32_t no = pel_merge(base, b, ours, o, base, b, 1.0, 16.0, rows, sizeof rows, &full, &half, &single);
    for (size_t r = 0; no == PEL_ANSWERED && r < full + half + single; r++)
        printf("base %d ours %d theirs %d: %d\n", rows[4 * r], rows[4 * r + 1], rows[4 * r + 2], rows[4 * r + 3]);
    return no != PEL_ANSWERED;
}
