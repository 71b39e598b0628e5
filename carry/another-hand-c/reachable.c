/* Request No. 7. */
#include "g.h"

uint32_t g_reachable(const uint32_t *strip, size_t n, uint64_t start, uint8_t *marks, size_t marks_len, uint64_t answer[8])
{
    Cell c; uint64_t place;
    /* "Checks: 3, then 42 start is no polygon, then 43 fewer bytes than polygons." */
    if (g_scan(strip, n, &c, &place)) return g_refuse(answer, 3, place);
    if (start >= c.np) { g_free(&c); return g_refuse(answer, 42, 0); }
    if (marks_len < c.np) { g_free(&c); return g_refuse(answer, 43, 0); }
    size_t *todo = malloc(c.np * sizeof *todo), todos = 0;
    if (!todo) abort();
    /* "mark 1 each polygon to which some chain of steps leads from there, the start included, 0 the others" */
    for (size_t i = 0; i < c.np; i++) marks[i] = 0;
    uint64_t count = 1;
    marks[start] = 1; todo[todos++] = start;
    /* portals by poly_from, so that a case with many of them ends in time */
    int64_t *head = malloc(65536 * sizeof *head), *next = malloc((c.no + 1) * sizeof *next);
    if (!head || !next) abort();
    if (c.no) for (int i = 0; i < 65536; i++) head[i] = -1;
    for (size_t i = 0; i < c.no; i++) { next[i] = head[c.portal[i].poly_from]; head[c.portal[i].poly_from] = (int64_t)i; }
    while (todos) {
        size_t p = todo[--todos];
        const Poly *q = &c.poly[p];
        for (uint32_t h = 0; h < 2 * q->ne; h++) {
            const uint32_t *half = q->edges + 3 * h;
            /* "Only edges below the vertex count serve." */
            if (h / 2 >= q->nv) continue;
            /* "A step goes over an edge half whose area is the cell's own id and whose poly, cut to 14 bits, is below
             * 16383 and a polygon of the strip." */
            if (half[0] != c.area) continue;
            uint32_t to = half[1] & 16383;
            if (to >= 16383 || to >= c.np) continue;
            if (!marks[to]) { marks[to] = 1; count++; todo[todos++] = to; }
        }
        if (c.no && p < 65536)
            for (int64_t i = head[p]; i >= 0; i = next[i]) {
                const Portal *o = &c.portal[i];
                /* "A portal whose two areas, 16 bits as in the strip, equal the own id is a step from poly_from to
                 * poly_to. A target beyond the last polygon leads nowhere." */
                if (o->poly_from != p || o->area_from != c.area || o->area_to != c.area) continue;
                if (o->poly_to >= c.np) continue;
                if (!marks[o->poly_to]) { marks[o->poly_to] = 1; count++; todo[todos++] = o->poly_to; }
            }
    }
    free(todo); free(head); free(next); g_free(&c);
    /* "and return how many are marked" */
    return g_accept(answer, count, 0, 0, 0, 0);
}
