// Draws a still of two macroblocks, the first skipped and the second 200 levels brighter, and prints a luma pixel of
// each, and how many sums were clipped. With zopredil installed:
//
//     c++ $(pkg-config --cflags zopredil) examples/draw_still.cpp $(pkg-config --libs zopredil) -o target/draw_still
//
// It prints 128 255, 256 clipped.
#include <cstdio>
#include <vector>
#include "zopredil.h"

int main()
{
    const std::size_t cols = 2, rows = 1, n = cols * rows;
    const std::vector<uint8_t> modes = {0, 0, 1, 0, 0, 0}; // luma DC, chroma DC; the first skipped
    const std::vector<uint8_t> sub_modes(16 * n);
    std::vector<int16_t> coeffs(400 * n);
    coeffs[400] = 64 * 200; // Y2 of the second
    std::vector<uint8_t> y(256 * n), u(64 * n), v(64 * n);
    uint64_t clipped = 0;
    const uint64_t answer =
        zopredil_still_alone(cols, rows, modes.data(), modes.size(), sub_modes.data(), sub_modes.size(), coeffs.data(),
                             coeffs.size(), y.data(), y.size(), u.data(), u.size(), v.data(), v.size(), &clipped, 1);
    if (answer == 0)
        std::printf("%d %d, %d clipped\n", y[0], y[16], static_cast<int>(clipped));
    return answer == 0 ? 0 : 1;
}
