/* Document 01: "an added seam count on a strip: halves of all its edges, surplus ones too, whose area differs from the
 * cell's by 1 or 100 as whole numbers; it refuses with 3 only", as No. 5 changes it. */
#include "g.h"

/* No. 5: "From now on two areas below 10000 touch when their ids differ by 100, or differ by 1 within the same row of a
 * hundred; an area of 10000 or more touches none." */
static int touch(uint32_t a, uint32_t b)
{
    if (a >= 10000 || b >= 10000)
        return 0;
    int64_t d = (int64_t)a - (int64_t)b;
    if (d == 100 || d == -100)
        return 1;
    if ((d == 1 || d == -1) && a / 100 == b / 100)
        return 1;
    return 0;
}

uint32_t g_count_seams(const uint32_t *strip, size_t n, uint64_t answer[8])
{
    Cell c; uint64_t place;
    if (g_scan(strip, n, &c, &place)) return g_refuse(answer, 3, place);
    uint64_t count = 0;
    for (size_t i = 0; i < c.np; i++)
        for (uint32_t h = 0; h < 2 * c.poly[i].ne; h++)
            if (touch(c.area, c.poly[i].edges[3 * h]))
                count++;
    g_free(&c);
    return g_accept(answer, count, 0, 0, 0, 0);
}
