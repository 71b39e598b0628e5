/* Request No. 3. */
#include "g.h"

uint32_t g_export_obj(const uint32_t *strip, size_t n, uint8_t *text, size_t text_len, uint64_t answer[8])
{
    Cell c; uint64_t place;
    /* "Checks: 3, 10, then 41 a polygon with fewer than 3 vertices (place: its number), then 2." */
    if (g_scan(strip, n, &c, &place)) return g_refuse(answer, 3, place);
    if (!g_box_finite(&c)) { g_free(&c); return g_refuse(answer, 10, 0); }
    for (size_t i = 0; i < c.np; i++)
        if (c.poly[i].nv < 3) { g_free(&c); return g_refuse(answer, 41, i); }
    char *out = malloc(32 * n + 64);
    if (!out) abort();
    size_t at = 0;
    /* "For every vertex of every polygon, in order, print `v X Y Z` with its three shorts in decimal." */
    for (size_t i = 0; i < c.np; i++)
        for (uint32_t k = 0; k < c.poly[i].nv; k++) {
            unsigned q[3];
            for (int a = 0; a < 3; a++)
                q[a] = g_short(g_float(c.poly[i].verts[3 * k + a]), g_float(c.min[a]), g_float(c.size[a])).q;
            at += (size_t)sprintf(out + at, "v %u %u %u\n", q[0], q[1], q[2]);
        }
    /* "Then print per polygon `f` and its vertex numbers, counted from 1 through the whole text." */
    unsigned long long number = 1;
    for (size_t i = 0; i < c.np; i++) {
        at += (size_t)sprintf(out + at, "f");
        for (uint32_t k = 0; k < c.poly[i].nv; k++)
            at += (size_t)sprintf(out + at, " %llu", number++);
        at += (size_t)sprintf(out + at, "\n");
    }
    g_free(&c);
    if (text_len < at) { free(out); return g_refuse(answer, 2, 0); }
    if (at) memcpy(text, out, at);
    free(out);
    return g_accept(answer, at, 0, 0, 0, 0);
}
