/* No. 11: "Add kind 6: a polygon as kind 2, with one word after the first, its number from 0. A strip uses kind 2 throughout or kind 6
 * throughout. ... Checks: a mixture is 3, at the first polygon of the other kind; 44 a number that isn't its position (place: first word of
 * that record) directly after 3 in every call that checks 3" */
#include "later.h"

static int order(uint32_t kind) { return kind == 6 ? 2 : (int)kind; }

uint32_t l_scan(const uint32_t *w, size_t n, uint32_t **plain, size_t *plain_n, int *kind_of, uint64_t *place)
{
    uint32_t *out = malloc(4 * n + 4); size_t m = 0, at = 0; uint64_t number = 0, wrong = 0; int has_wrong = 0, last = 0, kind_used = 0;
    if (!out) abort();
    for (;;) {
        if (at == n) { *place = n; break; }
        uint32_t first = w[at], kind = first >> 28;
        *place = at;
        if (kind < 1 || kind > 6) break;
        if (last == 0 ? kind != 1 : kind == 1) break;
        if (order(kind) < last) break;
        if ((kind == 1 || kind == 5) && (first & 0x0FFFFFFF)) break;
        if ((kind == 3 || kind == 4) && (first & 0x0FFF0000)) break;
        /* the mixture is judged with the first word: it is a matter of the kind */
        if (kind == 2 || kind == 6) { if (kind_used && kind_used != (int)kind) break; kind_used = (int)kind; }
        last = order(kind);
        if (kind == 5) {
            if (at + 1 != n) { *place = at + 1; break; }
            out[m++] = first;
            if (has_wrong) { *place = wrong; free(out); return 44; }
            *plain = out; *plain_n = m; *kind_of = kind_used;
            return 0;
        }
        uint64_t nv = first & 4095, ne = first >> 12 & 4095, nl = first >> 24 & 15, extra = kind == 6;
        uint64_t len = kind == 1 ? 14 : kind == 3 ? 11 : kind == 4 ? 4 : 4 + extra + nl + 3 * nv + 6 * ne;
        if (n - at < len) { *place = n; break; }
        const uint32_t *r = w + at + extra; /* r[1] is the first word after the number */
        int bad = 0;
        if (kind == 2 || kind == 6) {
            if (r[1] >> 16) bad = 1;
            for (uint64_t i = 0; i < nl; i++) if (r[4 + i] >> 16) bad = 1;
            for (uint64_t i = 0; i < 2 * ne; i++) if (r[4 + nl + 3 * nv + 3 * i + 2] >> 24) bad = 1;
            if (!bad && kind == 6 && w[at + 1] != number && !has_wrong) { has_wrong = 1; wrong = at; }
            number++;
        }
        if (kind == 3 && (r[1] >> 16 || r[10] >> 8)) bad = 1;
        if (bad) break;
        out[m++] = kind == 6 ? (first & 0x0FFFFFFF) | 0x20000000 : first;
        memcpy(out + m, r + 1, 4 * (len - 1 - extra)); m += len - 1 - extra;
        at += len;
    }
    free(out);
    return 3;
}

uint32_t l_pick_poly(const uint32_t *s, size_t n, uint16_t x, uint16_t y, uint64_t answer[8])
{
    uint32_t *p; size_t m; int k; uint64_t place; uint32_t r = l_scan(s, n, &p, &m, &k, &place);
    if (r) return g_refuse(answer, r, place);
    r = g_pick_poly(p, m, x, y, answer); free(p); return r;
}
uint32_t l_export_obj(const uint32_t *s, size_t n, uint8_t *t, size_t tn, uint64_t answer[8])
{
    uint32_t *p; size_t m; int k; uint64_t place; uint32_t r = l_scan(s, n, &p, &m, &k, &place);
    if (r) return g_refuse(answer, r, place);
    r = g_export_obj(p, m, t, tn, answer); free(p); return r;
}
uint32_t l_reachable(const uint32_t *s, size_t n, uint64_t start, uint8_t *t, size_t tn, uint64_t answer[8])
{
    uint32_t *p; size_t m; int k; uint64_t place; uint32_t r = l_scan(s, n, &p, &m, &k, &place);
    if (r) return g_refuse(answer, r, place);
    r = g_reachable(p, m, start, t, tn, answer); free(p); return r;
}
/* "A numbered strip that is accepted saves as the bytes of the same strip in kind 2"; 1 is against the words lent. No. 14: "The writer's
 * answer shows both." (here: answer[4] asked, answer[5] skipped) */
uint32_t l_serialize(const uint32_t *s, size_t n, uint32_t *work, size_t work_len, uint8_t *pages, size_t pages_len, uint64_t answer[8])
{
    uint32_t *p; size_t m; int k; uint64_t place; uint32_t r = l_scan(s, n, &p, &m, &k, &place);
    if (r) return g_refuse(answer, r, place);
    if (work_len / 4 < n) { free(p); return g_refuse(answer, 1, 0); }
    r = g_serialize(p, m, work, work_len, pages, pages_len, answer);
    free(p);
    if (!r) { answer[4] = g_asked; answer[5] = g_skipped; }
    return r;
}
