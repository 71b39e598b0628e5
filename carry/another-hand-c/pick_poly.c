/* Request No. 1. */
#include "g.h"

/* "A side from (x1, y1) to (x2, y2), the last vertex joining the first, is crossed when exactly one of y1 <= y and y2 <= y
 * holds and the spot is strictly left of the side at height y, decided in whole numbers." */
static int crossed(int64_t x1, int64_t y1, int64_t x2, int64_t y2, int64_t x, int64_t y)
{
    int one = y1 <= y, two = y2 <= y;
    if (one == two)
        return 0;
    /* The side at height y is at x1 + (y - y1) (x2 - x1) / (y2 - y1). */
    int64_t left = (x - x1) * (y2 - y1), right = (y - y1) * (x2 - x1);
    return y2 > y1 ? left < right : left > right;
}

uint32_t g_pick_poly(const uint32_t *strip, size_t n, uint16_t x, uint16_t y, uint64_t answer[8])
{
    Cell c; uint64_t place;
    /* "Checks: 3, then 10; none is no refusal." */
    if (g_scan(strip, n, &c, &place)) return g_refuse(answer, 3, place);
    if (!g_box_finite(&c)) { g_free(&c); return g_refuse(answer, 10, 0); }
    /* "return the lowest-numbered polygon containing them, or none. Vertices become shorts by the cell's box." */
    for (size_t i = 0; i < c.np; i++) {
        const Poly *p = &c.poly[i];
        /* "A polygon with fewer than 3 vertices contains nothing." */
        if (p->nv < 3)
            continue;
        uint64_t crossings = 0;
        for (uint32_t k = 0; k < p->nv; k++) {
            uint32_t l = k + 1 == p->nv ? 0 : k + 1;
            uint16_t q[4];
            for (int j = 0; j < 4; j++) {
                int axis = j & 1;
                uint32_t v = j < 2 ? k : l;
                q[j] = g_short(g_float(p->verts[3 * v + axis]), g_float(c.min[axis]), g_float(c.size[axis])).q;
            }
            crossings += crossed(q[0], q[1], q[2], q[3], x, y);
        }
        /* "An odd number of crossings is inside." */
        if (crossings % 2 == 1) { g_free(&c); return g_accept(answer, 1, i, 0, 0, 0); }
    }
    g_free(&c);
    return g_accept(answer, 0, 0, 0, 0, 0);
}
