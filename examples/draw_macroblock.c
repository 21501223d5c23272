/* Draws a macroblock without neighbours and prints its first luma row, and how many sums were clipped. From the
 * repository's root, after tools/build-archive:
 *
 *     cc -I include examples/draw_macroblock.c target/host/libzopredil.a -o target/draw_macroblock
 *     target/draw_macroblock
 *
 * It prints 146 137 123 114 and then twelve times 130: grey 128, 2 of the Y2 block, and the wave of one coefficient.
 * Nothing is below 0 or above 255, so the next line is 0 clipped. */
#include <stdio.h>
#include "zopredil.h"

int main(void)
{
    const uint8_t modes[3] = {0, 0, 0}; /* luma DC, chroma DC, not skipped */
    const uint8_t record[81] = {0};     /* every edge absent */
    int16_t coeffs[400] = {[0] = 128, [16 + 1] = 100};
    uint8_t out[384];
    uint64_t clipped = 0;
    uint32_t reply = zopredil_macroblock(modes, 3, NULL, 0, record, 81, coeffs, 400, out, 384, &clipped, 1);
    for (int x = 0; reply == 0 && x < 16; x++)
        printf("%d%c", out[x], x < 15 ? ' ' : '\n');
    if (reply == 0)
        printf("%d clipped\n", (int)clipped);
    return (int)reply;
}
