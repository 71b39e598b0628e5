#include "later.h"

/* No. 8: "Add a call that reads pages and writes them again; the caller lends strip, work and target, and the strip counts as work here, so
 * that a refusal in writing may leave anything in it. ... Checks: as reading, then as writing; 1 and 2 keep their places there, 1 against the
 * words read." */
uint32_t l_resave(const uint8_t *sys, size_t sn, const uint8_t *gfx, size_t gn, uint32_t *strip, size_t strip_len, uint32_t *work, size_t work_len,
                  uint8_t *pages, size_t pages_len, uint64_t answer[8])
{
    uint64_t a[8];
    uint32_t r = g_parse(sys, sn, gfx, gn, strip, strip_len, a);
    if (r) return g_refuse(answer, r, a[0]);
    return l_serialize(strip, a[0], work, work_len, pages, pages_len, answer);
}

/* No. 5's touch, and No. 9: "the seam count first leaves out a half whose poly, cut to 14 bits, is 16383, and only then takes the area" */
uint32_t l_count_seams(const uint32_t *s, size_t n, uint64_t answer[8])
{
    uint32_t *p; size_t m; int k; uint64_t place; uint32_t r = l_scan(s, n, &p, &m, &k, &place);
    if (r) return g_refuse(answer, r, place);
    Cell c; g_scan(p, m, &c, &place);
    uint64_t count = 0;
    for (size_t i = 0; i < c.np; i++)
        for (uint32_t h = 0; h < 2 * c.poly[i].ne; h++) {
            const uint32_t *e = c.poly[i].edges + 3 * h;
            if ((e[1] & 16383) == 16383) continue;
            int64_t d = (int64_t)c.area - (int64_t)e[0];
            if (c.area < 10000 && e[0] < 10000 && (d == 100 || d == -100 || ((d == 1 || d == -1) && c.area / 100 == e[0] / 100))) count++;
        }
    g_free(&c); free(p);
    return g_accept(answer, count, 0, 0, 0, 0);
}

/* No. 10: "Given a strip and an area id, return the first polygon with an edge half of that area, its poly not looked at, surplus edges
 * included, or none, and stop there. ... Checks: 3, only for a record before or at the stopping place, or where there is no such polygon."
 * No. 11: "No. 10 makes both as far as it reads". Plainly: for each place where a record ends, ask whether the words up to there and an end
 * would be a strip, 3 first, then 44. */
uint32_t l_mentioning(const uint32_t *w, size_t n, uint32_t area, uint64_t answer[8])
{
    uint32_t *p; size_t m; int k; uint64_t place;
    uint32_t *part = malloc(4 * n + 8);
    if (!part) abort();
    /* find the stopping place: the first polygon, wholly there, with such a half, all records before it being there too */
    size_t at = 0; uint64_t number = 0; int found = 0;
    while (at < n && !found) {
        uint32_t first = w[at], kind = first >> 28; uint64_t nv = first & 4095, ne = first >> 12 & 4095, nl = first >> 24 & 15, extra = kind == 6;
        uint64_t len = kind == 1 ? 14 : kind == 2 || kind == 6 ? 4 + extra + nl + 3 * nv + 6 * ne : 0;
        if (len == 0 || n - at < len) break; /* not a cell or polygon: no polygon follows in a strip */
        if (kind == 2 || kind == 6) {
            for (uint64_t i = 0; i < 2 * ne; i++) if (w[at + 4 + extra + nl + 3 * nv + 3 * i] == area) found = 1;
            if (!found) number++;
        }
        at += len;
    }
    uint32_t r;
    if (found) {
        memcpy(part, w, 4 * at); part[at] = 0x50000000;
        r = l_scan(part, at + 1, &p, &m, &k, &place);
    } else
        r = l_scan(w, n, &p, &m, &k, &place);
    free(part);
    if (r) return g_refuse(answer, r, place);
    free(p);
    return found ? g_accept(answer, 1, number, 0, 0, 0) : g_accept(answer, 0, 0, 0, 0, 0);
}

/* No. 12: "Convert a strip to the wanted kind, 6 by a yes, 2 by a no. A polygon's kind bits change and its number word comes or goes; all else is
 * copied in order. A strip without polygons belongs to both kinds and is copied. ... Checks: 3, 44, then 45 already of the wanted kind with at
 * least one polygon, or, towards 6, more than 2^32 polygons, then 2." */
uint32_t l_convert(const uint32_t *w, size_t n, int to6, uint32_t *out, size_t out_len, uint64_t answer[8])
{
    uint32_t *p; size_t m; int k; uint64_t place; uint32_t r = l_scan(w, n, &p, &m, &k, &place);
    if (r) return g_refuse(answer, r, place);
    if (k != 0 && k == (to6 ? 6 : 2)) { free(p); return g_refuse(answer, 45, 0); }
    Cell c; g_scan(p, m, &c, &place);
    size_t words = to6 ? m + c.np : m;
    if (out_len < words) { g_free(&c); free(p); return g_refuse(answer, 2, 0); }
    if (!to6) memcpy(out, p, 4 * m);
    else {
        size_t o = 14; memcpy(out, p, 56);
        for (size_t i = 0; i < c.np; i++) {
            const uint32_t *rec = c.poly[i].links - 4; size_t len = 4 + c.poly[i].nl + 3 * c.poly[i].nv + 6 * c.poly[i].ne;
            out[o++] = (rec[0] & 0x0FFFFFFF) | 0x60000000; out[o++] = (uint32_t)i;
            memcpy(out + o, rec + 1, 4 * (len - 1)); o += len - 1;
        }
        size_t left = words - o; memcpy(out + o, p + m - left, 4 * left);
    }
    g_free(&c); free(p);
    return g_accept(answer, words, 0, 0, 0, 0);
}

/* No. 13: "A half in A counts when it lies below the vertex count, its poly cut to 14 bits isn't 16383, and its area is B's id. It is met when the
 * polygon of that number in B has such a half with A's id and A's polygon number. Return halves met, halves unmet and the first polygon of A with
 * an unmet half, or none. ... Checks: 3 and 44 for A; 46 B is badly formed or wrongly numbered (place: as 3 or 44 would give in B); 47 the two ids
 * are equal." Answer here: met, unmet, 1 if there is such a polygon, its number. */
uint32_t l_compare_seam(const uint32_t *a, size_t an, const uint32_t *b, size_t bn, uint64_t answer[8])
{
    uint32_t *pa, *pb; size_t ma, mb; int k; uint64_t place; uint32_t r = l_scan(a, an, &pa, &ma, &k, &place);
    if (r) return g_refuse(answer, r, place);
    if (l_scan(b, bn, &pb, &mb, &k, &place)) { free(pa); return g_refuse(answer, 46, place); }
    Cell A, B; g_scan(pa, ma, &A, &place); g_scan(pb, mb, &B, &place);
    uint64_t met = 0, unmet = 0, has = 0, first = 0;
    int equal = A.area == B.area;
    for (size_t i = 0; !equal && i < A.np; i++)
        for (uint32_t h = 0; h < 2 * A.poly[i].ne && h / 2 < A.poly[i].nv; h++) {
            const uint32_t *e = A.poly[i].edges + 3 * h; uint32_t to = e[1] & 16383; int found = 0;
            if (to == 16383 || e[0] != B.area) continue;
            if (to < B.np) {
                const Poly *q = &B.poly[to];
                for (uint32_t g = 0; g < 2 * q->ne && g / 2 < q->nv; g++) {
                    const uint32_t *f = q->edges + 3 * g;
                    if ((f[1] & 16383) != 16383 && f[0] == A.area && (f[1] & 16383) == i) found = 1;
                }
            }
            if (found) met++;
            else { unmet++; if (!has) { has = 1; first = i; } }
        }
    g_free(&A); g_free(&B); free(pa); free(pb);
    if (equal) return g_refuse(answer, 47, 0);
    return g_accept(answer, met, unmet, has, first, 0);
}
