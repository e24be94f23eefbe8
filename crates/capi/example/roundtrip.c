/* Draws a character at the lock's settings, scans it back, and asks whether two rates fit. */
#include "capi.h"
#include <stdio.h>

int main(void)
{
    const struct hotskrebi_end lock = {.divider = 6, .modulator = 0x6f, .data_bits = 8, .stop_bits = 1};
    const uint16_t character = 0x41;
    uint8_t picture[100];
    struct hotskrebi_entry entries[4];
    struct hotskrebi_verdict verdict;
    size_t written, found;

    uint8_t refusal = hotskrebi_draw(&lock, &character, 1, picture, sizeof picture, &written);
    if (refusal == 0)
        refusal = hotskrebi_scan(&lock, picture, written, entries, 4, &found);
    if (refusal == 0)
        refusal = hotskrebi_fit(&lock, &lock, 53, 52, &verdict);
    if (refusal != 0) {
        printf("refused with %u\n", refusal);
        return 1;
    }
    printf("%02Xh takes %zu clocks and is scanned as %02Xh, flags %u (entries: %zu)\n", character, written,
           entries[0].character, entries[0].flags, found);
    printf("53 send clocks to 52 receive clocks: verdict %u at bit %zu\n", verdict.verdict, verdict.bit);
    return 0;
}
