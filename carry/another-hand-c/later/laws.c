/* laws SEED COUNT: what requests 9 to 14 say follows, on my versions. No library with them was at hand. */
#include "../gen.h"
#include "later.h"
#define LAW(ok, ...) do { if (!(ok)) { bad++; printf("LAW BROKEN case %llu: ", (unsigned long long)i); printf(__VA_ARGS__); printf("\n"); } } while (0)
int main(int argc, char **argv)
{
    uint64_t seed = argc > 1 ? strtoull(argv[1], 0, 0) : 1, count = argc > 2 ? strtoull(argv[2], 0, 0) : 10000;
    static uint32_t six[2000000], two[2000000], six2[2000000]; static uint8_t p1[7000000], p2[7000000];
    unsigned long bad = 0, formed = 0, written = 0, mention = 0, hist[64] = { 0 }, lazy = 0;
    for (uint64_t i = 0; i < count; i++) {
        reseed(seed * 31 + 7, i);
        if (i % 400 == 9) gen_limit(21); else gen_strip(1);
        if (chance(1, 5)) damage_strip();
        if (SN > 400000) continue;
        uint64_t a[8], b[8], c[8], d[8]; uint64_t place; Cell q;
        uint32_t r = g_scan(S, SN, &q, &place);
        uint32_t area = chance(1, 2) ? an_id() : q.area + 1;
        if (!r && q.np && chance(2, 3)) { const Poly *o = &q.poly[below((uint32_t)q.np)]; if (o->ne) area = o->edges[3 * below(2 * o->ne)]; }
        uint32_t rm = l_mentioning(S, SN, area, a);
        hist[rm]++;
        if (r) {
            uint32_t *p; size_t m; int k; uint64_t pl; uint32_t rl = l_scan(S, SN, &p, &m, &k, &pl); (void)place; /* kind 6 came by damage */
            if (rl == 0) { free(p); continue; }
            if (rm == 3 || rm == 44) LAW(rm == rl && a[0] == pl, "10: %u at %llu, not %u at %llu", rm, (unsigned long long)a[0], rl, (unsigned long long)pl); else { lazy++; LAW(rm == 0 && a[0] == 1, "10: %u", rm); }
            continue;
        }
        formed++;
        /* 10: "On a well-formed strip the answer equals that of a search through all of it." */
        uint64_t has = 0, first = 0;
        for (size_t k = 0; k < q.np && !has; k++) for (uint32_t h = 0; h < 2 * q.poly[k].ne; h++) if (q.poly[k].edges[3 * h] == area) { has = 1; first = k; break; }
        LAW(rm == 0 && a[0] == has && a[1] == first, "10: not the full search"); mention += has;
        /* 9: "a strip counts one less for each half counted until now whose cut poly is 16383" */
        uint64_t less = 0;
        g_count_seams(S, SN, a); l_count_seams(S, SN, b);
        for (size_t k = 0; k < q.np; k++) for (uint32_t h = 0; h < 2 * q.poly[k].ne; h++) {
            uint32_t e = q.poly[k].edges[3 * h], o = q.area; int64_t f = (int64_t)e - o;
            if ((q.poly[k].edges[3 * h + 1] & 16383) == 16383 && e < 10000 && o < 10000 && (f == 100 || f == -100 || ((f == 1 || f == -1) && e / 100 == o / 100))) less++; }
        LAW(a[0] == b[0] + less, "9");
        /* 12: there and back; 11: the numbered strip's calls */
        uint32_t rs = l_convert(S, SN, 1, six, 2000000, a);
        LAW(rs == 0 && a[0] == SN + q.np, "12: to six %u", rs);
        uint32_t rt = l_convert(six, a[0], 0, two, 2000000, b);
        LAW(rt == 0 && b[0] == SN && !memcmp(two, S, 4 * SN), "12: back %u", rt);
        uint32_t ru = l_convert(two, b[0], 1, six2, 2000000, c);
        LAW(ru == 0 && c[0] == a[0] && !memcmp(six, six2, 4 * c[0]), "12: and there again");
        if (q.np) { LAW(l_convert(S, SN, 0, two, 2000000, d) == 45 && l_convert(six, a[0], 1, six2, 2000000, d) == 45, "12: 45"); }
        size_t sixn = a[0];
        memset(c, 0, 64); memset(d, 0, 64);
        uint32_t w1 = g_serialize(S, SN, NULL, 4 * SN, p1, sizeof p1, c), w2 = l_serialize(six, sixn, NULL, 4 * sixn, p2, sizeof p2, d);
        LAW(w1 == w2 && c[0] == d[0] && (w1 || !memcmp(p1, p2, c[0])), "11: saved bytes");
        if (!w1) {
            written++;
            /* 14: "The saved length is their sum for every accepted strip" ; asked from the pages' own counts (TRAPS 53) */
            uint64_t parts = 0; static const size_t at[4] = { 0x70, 0x80, 0x88, 0x118 };
            for (int l = 0; l < 4; l++) parts += r32(p1, (size_t)(r64(p1, at[l]) - 0x50000000) + 0x20);
            LAW(d[4] + d[5] == d[0], "14: asked %llu skipped %llu length %llu", (unsigned long long)d[4], (unsigned long long)d[5], (unsigned long long)d[0]);
            LAW(d[4] == r32(p1, 0x144) + 368ull + 192 + 20 * parts + 2 * (uint64_t)r32(p1, 0x150), "14: asked");
        }
        g_free(&q);
    }
    printf("laws 9 to 12, 14: %llu cases, %lu well formed, %lu written, %lu mentions, %lu damaged strips answered before the damage, %lu broken; No. 10's numbers:", (unsigned long long)count, formed, written, mention, lazy, bad);
    for (int k = 0; k < 64; k++) if (hist[k]) printf(" %d:%lu", k, hist[k]);
    printf("\n");
    return bad != 0;
}
