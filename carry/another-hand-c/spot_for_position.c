/* ynv.h: "The spot of a position, for ynv_pick_poly(): the shorts that saving stores of a vertex there". Answer: x, y.
 * Refusals 3, 10. No sentence of documents 01 and 02 names this call. */
#include "g.h"

uint32_t g_spot_for_position(const uint32_t *strip, size_t n, float x, float y, uint64_t answer[8])
{
    Cell c; uint64_t place;
    if (g_scan(strip, n, &c, &place)) return g_refuse(answer, 3, place);
    int finite = g_box_finite(&c);
    g_free(&c);
    if (!finite) return g_refuse(answer, 10, 0);
    return g_accept(answer, g_short(x, g_float(c.min[0]), g_float(c.size[0])).q,
                    g_short(y, g_float(c.min[1]), g_float(c.size[1])).q, 0, 0, 0);
}
