/* ynv.rs: let x0 = CELL_ORIGIN + cx as f32 * CELL_SIZE; ...; (x0, y0, x0 + CELL_SIZE, y0 + CELL_SIZE).
 * Document 01: "5 cell coordinate above 99". */
#include "g.h"

uint32_t g_cell_bounds(uint32_t cx, uint32_t cy, uint64_t answer[8])
{
    if (cx > 99 || cy > 99) return g_refuse(answer, 5, 0);
    float px = (float)cx * 150.0f, py = (float)cy * 150.0f;
    float x0 = -6000.0f + px, y0 = -6000.0f + py;
    float x1 = x0 + 150.0f, y1 = y0 + 150.0f;
    return g_accept(answer, g_bits(x0), g_bits(y0), g_bits(x1), g_bits(y1), 0);
}
