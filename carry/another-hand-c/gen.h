/* Seeded generators of strips and pages. Everything follows from (call, seed, number of the case). */
#ifndef GEN_H
#define GEN_H
#include "g.h"
#include "/work/main/include/ynv.h"

static uint64_t RS;
static uint64_t rnd(void)
{
    uint64_t z = (RS += 0x9E3779B97F4A7C15ull);
    z = (z ^ z >> 30) * 0xBF58476D1CE4E5B9ull;
    z = (z ^ z >> 27) * 0x94D049BB133111EBull;
    return z ^ z >> 31;
}
static uint32_t below(uint32_t n) { return n ? (uint32_t)((rnd() >> 32) * n >> 32) : 0; }
static int chance(uint32_t a, uint32_t b) { return below(b) < a; }
static double unit(void) { return (double)(rnd() >> 11) * 0x1p-53; }
static void reseed(uint64_t seed, uint64_t salt) { RS = seed * 0xD1342543DE82EF95ull + salt; rnd(); RS = rnd(); }

/* ---- words under construction ---- */
static uint32_t *S; static size_t SN, SROOM;
static void push(uint32_t w)
{
    if (SN == SROOM) { SROOM = SROOM ? 2 * SROOM : 4096; S = realloc(S, 4 * SROOM); if (!S) abort(); }
    S[SN++] = w;
}
static size_t *REC; static size_t RN, RROOM; /* where records begin */
static void record(void)
{
    if (RN == RROOM) { RROOM = RROOM ? 2 * RROOM : 4096; REC = realloc(REC, sizeof *REC * RROOM); if (!REC) abort(); }
    REC[RN++] = SN;
}

/* ---- ids ---- */
static const uint32_t IDS[] = { 0, 1, 2, 98, 99, 100, 101, 198, 199, 200, 201, 299, 300, 5050, 9799, 9800, 9898, 9899, 9900, 9901,
    9998, 9999, 10000, 10001, 10099, 10100, 16282, 16283, 16284, 16381, 16382, 16383, 16384, 16385, 16482, 16483, 16484, 65435, 65436,
    65534, 65535, 65536, 65537, 65636, 131071, 0x7FFFFFFF, 0x80000000, 0xFFFFFF9B, 0xFFFFFF9C, 0xFFFFFF9D, 0xFFFFFFFE, 0xFFFFFFFF };
static uint32_t an_id(void)
{
    if (chance(1, 3)) return below(10000);
    if (chance(1, 12)) return (uint32_t)rnd();
    return IDS[below(sizeof IDS / sizeof *IDS)];
}

/* ---- floats ---- */
static const uint32_t ODD[] = { 0x7FC00000, 0xFFC00000, 0x7F800001, 0xFF800001, 0x7FFFFFFF, 0xFFFFFFFF, 0x7FA12345, 0x7F800000, 0xFF800000,
    0x00000000, 0x80000000, 0x00000001, 0x80000001, 0x007FFFFF, 0x807FFFFF, 0x00800000, 0x7F7FFFFF, 0xFF7FFFFF, 0x34000000, 0x33800000,
    0x33FFFFFF, 0x3F800000, 0xBF800000, 0x46000000, 0xC6000000, 0x45FFFF00, 0xC5FFFFFF, 0x47000000, 0xC7000000, 0x45FFFFFF, 0x46000001,
    0x37000080, 0x3EFFFFFF, 0xBEC00000, 0x45FFF800 };
static uint32_t odd_float(void) { return chance(1, 5) ? (uint32_t)rnd() : ODD[below(sizeof ODD / sizeof *ODD)]; }

typedef struct { float lo[3], hi[3], size[3]; } GBox;
static GBox B;
static int WILD; /* how wild coordinates are, 0 to 3 */

static void a_box(int axis, int mode)
{
    float lo, hi, size;
    switch (mode) {
    default: { int k = (int)below(100); lo = (float)(-6000 + 150 * k); hi = lo + 150; size = 150;
               if (axis == 2) { lo = (float)(int)below(300) - 150; hi = lo + (float)below(500); size = hi - lo; } break; }
    case 1: lo = 0; hi = (float)(1 + below(8)); size = hi; break;
    case 2: lo = (float)(unit() * 32768 - 16384); hi = lo + (float)(unit() * 4096); size = hi - lo; break;
    case 3: lo = (float)(unit() * 300 - 150); hi = (float)(unit() * 300 - 150); size = (float)(unit() * 600 - 300); break;
    case 4: { static const float t[] = { 0x1p-23f, 0x1p-24f, 0x1.fffffep-24f, 0x1.000002p-23f, 0, -0.0f, -0x1p-23f, -0x1p-24f, 1e-40f, -1e-45f, 1e-20f, -1, 2, 0x1p-22f };
              lo = chance(1, 2) ? 0 : (float)(unit() * 4 - 2); size = t[below(14)]; hi = lo + size; break; }
    case 5: { static const float t[] = { 3e38f, -3e38f, 3.4028235e38f, -3.4028235e38f, 1e38f, -1e38f, 3.2e38f };
              lo = t[below(7)]; hi = t[below(7)]; size = chance(1, 2) ? t[below(7)] : hi - lo; if (!isfinite(size)) size = 3e38f; break; }
    case 6: hi = (float)(unit() * 100); lo = hi + (float)(unit() * 100); size = chance(1, 2) ? hi - lo : lo - hi; break;
    case 7: lo = -8192 + (float)below(3) * 0.125f; hi = 8191 + (float)below(9) * 0.25f; size = hi - lo; break;
    case 8: lo = (float)((int)below(200) - 100) * 0.125f; hi = lo + (float)below(64) * 0.125f; size = hi - lo; break;
    case 9: do lo = g_float(odd_float()); while (!isfinite(lo)); do hi = g_float(odd_float()); while (!isfinite(hi));
            do size = g_float(odd_float()); while (!isfinite(size)); break;
    }
    if (chance(1, 60)) lo = -0.0f;
    B.lo[axis] = lo; B.hi[axis] = hi; B.size[axis] = size;
}

static uint32_t nudge(float f) { uint32_t b = g_bits(f); int d = (int)below(5) - 2; return b + (uint32_t)d; }

static uint32_t coord(int a)
{
    float lo = B.lo[a], e = B.size[a], hi = B.hi[a];
    int k = (int)below(100);
    if (WILD == 0) k = k < 70 ? 0 : k < 85 ? 60 : 70;
    else if (WILD == 1) k = k < 60 ? 0 : k;
    if (k < 40) return g_bits((float)(lo + unit() * e));
    if (k < 45) return g_bits(chance(1, 3) ? lo : chance(1, 2) ? lo + e : hi);
    if (k < 50) return nudge(chance(1, 3) ? lo : chance(1, 2) ? lo + e : hi);
    if (k < 57) return g_bits((float)(lo + (unit() * 3 - 1) * e));
    if (k < 65) return g_bits((float)(int)(((double)lo + unit() * e) * 4) * 0.25f);
    if (k < 72) { double c = lo + (hi - (double)lo) * below(9) / 8.0; return chance(1, 3) ? nudge((float)c) : g_bits((float)c); }
    if (k < 80) return nudge((float)(lo + ((double)below(65535) + 0.5) / 65535.0 * e));
    if (k < 84) return g_bits(lo + (float)below(65536) / 65535.0f * e);
    if (k < 86) return g_bits((float)(unit() * 20000 - 10000));
    if (WILD < 2 && k < 94) return g_bits((float)(lo + unit() * e));
    return odd_float();
}

/* A coordinate whose short is about q. */
static uint32_t coord_of_short(int a, uint32_t q) { return g_bits(B.lo[a] + (float)q / 65535.0f * B.size[a]); }

typedef struct {
    int boxmode[3], bad_box, content;
    uint32_t own; int own_percent, area_pool; uint32_t pool[64];
    uint32_t np, no, nt, nv_lo, nv_hi; int links; /* 0 none, 1 up to 7, 2 up to 15 */
    int edges; /* 0 as many as vertices, 1 mixed, 2 none */
    int shape; /* 0 random, 1 rectangles and triangles in shorts, 2 one tiny grid */
    int odd_poly; /* one in this many polygons has an odd count of vertices; 0 never */
} Par;

static uint32_t a_poly(const Par *p, uint32_t i)
{
    uint32_t np = p->np ? p->np : 1;
    switch (below(16)) {
    case 0: return 16383;
    case 1: return 16384 + below(np);
    case 2: return 32767;
    case 3: return np - 1 + below(3);
    case 4: return (uint32_t)rnd();
    case 5: return 16382 + below(3);
    case 6: return i + 1;
    case 7: case 8: return i ? i - 1 : 0;
    default: return below(np);
    }
}
static uint32_t an_area(const Par *p)
{
    if ((int)below(100) < p->own_percent) return p->own;
    switch (below(10)) {
    case 0: return p->own + 1;
    case 1: return p->own - 1;
    case 2: return p->own + 100;
    case 3: return p->own - 100;
    case 4: return 16383;
    default: return p->pool[below((uint32_t)p->area_pool)];
    }
}

static void gen_poly(const Par *p, uint32_t i)
{
    uint32_t nv = p->nv_lo + below(p->nv_hi - p->nv_lo + 1);
    if (p->odd_poly && chance(1, (uint32_t)p->odd_poly)) { static const uint32_t t[] = { 0, 1, 2, 0, 1, 2, 2047, 2048, 4095, 2049 }; nv = t[below(chance(1, 6) ? 10 : 6)]; }
    uint32_t ne = nv;
    if (p->edges == 2) ne = 0;
    if (p->edges == 1 && chance(4, 10)) ne = chance(1, 3) ? 0 : chance(1, 2) ? below(nv + 1) : nv + 1 + below(4);
    if (ne > 4095) ne = 4095;
    uint32_t nl = p->links == 0 ? 0 : chance(1, 2) ? 0 : below(p->links == 1 ? 8 : 16);
    if (p->links == 2 && !chance(1, 12) && nl > 7) nl = 7;
    size_t base = SN;
    (void)base;
    record();
    push(0x20000000u | nv | ne << 12 | nl << 24);
    push((uint32_t)rnd() & 65535); push((uint32_t)rnd()); push((uint32_t)rnd());
    for (uint32_t k = 0; k < nl; k++) push((uint32_t)rnd() & 65535);
    static uint32_t keep[64][3]; static uint32_t kept;
    if (i == 0) kept = 0;
    uint32_t q0 = below(65536), q1 = below(65536), r0 = below(65536), r1 = below(65536);
    int shape = p->shape;
    uint32_t corner = below(4);
    for (uint32_t k = 0; k < nv; k++) {
        uint32_t v[3];
        if (shape == 1 && nv <= 4) {
            uint32_t c = (k + corner) & 3;
            v[0] = coord_of_short(0, c == 1 || c == 2 ? q1 : q0);
            v[1] = coord_of_short(1, c >= 2 ? r1 : r0);
            v[2] = coord(2);
        } else if (shape == 2) {
            for (int a = 0; a < 3; a++) v[a] = g_bits((float)(B.lo[a] + B.size[a] * below(4) / 3.0));
        } else if (shape == 3) { /* all in one place */
            for (int a = 0; a < 3; a++) v[a] = g_bits((float)(B.lo[a] + B.size[a] * (0.05 + 0.05 * unit())));
        } else {
            if (kept && chance(1, 4)) memcpy(v, keep[below(kept)], 12);
            else for (int a = 0; a < 3; a++) v[a] = coord(a);
        }
        if (kept < 64) memcpy(keep[kept++], v, 12);
        else if (chance(1, 4)) memcpy(keep[below(64)], v, 12);
        for (int a = 0; a < 3; a++) push(v[a]);
    }
    for (uint32_t k = 0; k < 2 * ne; k++) {
        push(an_area(p)); push(a_poly(p, i)); push((uint32_t)rnd() & 0xFFFFFF);
    }
}

static void gen_portal(const Par *p)
{
    uint32_t np = p->np ? p->np : 1;
    record();
    push(0x30000000u | ((uint32_t)rnd() & 65535));
    push((uint32_t)rnd() & 65535);
    for (int k = 0; k < 6; k++) push(coord(k % 3));
    uint32_t from = chance(9, 10) ? below(np) : (uint32_t)rnd() & 65535, to = chance(8, 10) ? below(np) : chance(1, 2) ? np + below(3) : (uint32_t)rnd() & 65535;
    if (chance(1, 40)) to = 16383;
    push((from & 65535) | to << 16);
    uint32_t a = chance(8, 10) ? p->own & 65535 : (uint32_t)rnd() & 65535, b = chance(8, 10) ? p->own & 65535 : an_id() & 65535;
    push(a | b << 16);
    push((uint32_t)rnd() & 255);
}

static void gen_point(void)
{
    record();
    push(0x40000000u | ((uint32_t)rnd() & 65535));
    for (int a = 0; a < 3; a++) push(coord(a));
}

static void gen_cell(const Par *p)
{
    for (int a = 0; a < 3; a++) a_box(a, p->boxmode[a]);
    SN = RN = 0;
    record();
    push(0x10000000);
    push((uint32_t)p->content); push(p->own); push((uint32_t)rnd()); push((uint32_t)rnd());
    for (int a = 0; a < 3; a++) push(g_bits(B.lo[a]));
    for (int a = 0; a < 3; a++) push(g_bits(B.hi[a]));
    for (int a = 0; a < 3; a++) push(g_bits(B.size[a]));
    if (p->bad_box) { static const uint32_t t[] = { 0x7F800000, 0xFF800000, 0x7FC00000, 0x7F800001, 0xFFFFFFFF }; S[5 + below(9)] = t[below(5)]; }
}
static void gen_end(void) { record(); push(0x50000000); }

static void par_common(Par *p)
{
    memset(p, 0, sizeof *p);
    int m = chance(2, 3) ? 0 : 1 + (int)below(9);
    for (int a = 0; a < 3; a++) p->boxmode[a] = chance(4, 5) ? m : (int)below(10);
    p->bad_box = chance(1, 40);
    p->content = (int)(chance(1, 3) ? (uint32_t)rnd() : below(8));
    p->own = an_id();
    p->own_percent = (int)(chance(1, 3) ? 90 : chance(1, 2) ? 50 : 15);
    p->area_pool = 1 + (int)below(chance(1, 10) ? 40 : 6);
    for (int i = 0; i < 64; i++) p->pool[i] = chance(1, 2) ? an_id() : (uint32_t)rnd() % 20000;
    WILD = (int)below(4);
    p->shape = chance(1, 2) ? 0 : 1 + (int)below(3);
    p->nv_lo = 3; p->nv_hi = 3 + below(4);
    p->links = chance(1, 3) ? 0 : chance(14, 15) ? 1 : 2;
    p->edges = chance(1, 8) ? 2 : chance(1, 2) ? 0 : 1;
}

static void gen_strip_of(Par *p)
{
    gen_cell(p);
    for (uint32_t i = 0; i < p->np; i++) gen_poly(p, i);
    for (uint32_t i = 0; i < p->no; i++) gen_portal(p);
    for (uint32_t i = 0; i < p->nt; i++) gen_point();
    gen_end();
}

/* An everyday strip: few polygons, sometimes some more. */
static void gen_strip(int odd)
{
    Par p; par_common(&p);
    uint32_t k = below(100);
    p.np = k < 70 ? below(6) : k < 95 ? below(30) : below(200);
    p.no = chance(1, 2) ? 0 : below(chance(1, 10) ? 40 : 5);
    p.nt = chance(1, 2) ? 0 : below(chance(1, 10) ? 80 : 8);
    p.odd_poly = odd && chance(1, 3) ? 6 : odd && chance(1, 2) ? 60 : 0;
    gen_strip_of(&p);
}

/* ---- damage to a strip ---- */
static void damage_strip(void)
{
    uint32_t times = 1 + below(2);
    while (times--) {
        switch (below(13)) {
        case 10: { /* a record once more, somewhere */
            uint32_t i = below((uint32_t)RN), j = below((uint32_t)RN); size_t from = REC[i], to = i + 1 < RN ? REC[i + 1] : SN, at = REC[j];
            if (to > SN || at > SN || from > to || to - from > 2000) break;
            static uint32_t t[2000]; size_t n = to - from; memcpy(t, S + from, 4 * n);
            for (size_t k = 0; k < n; k++) push(0);
            memmove(S + at + n, S + at, 4 * (SN - n - at)); memcpy(S + at, t, 4 * n); break; }
        case 11: case 12: { /* a bit at a border of fields, in any word of a record */
            static const uint32_t bit[] = { 8, 16, 24, 31, 7, 15, 23, 28, 12 };
            uint32_t i = below((uint32_t)RN); size_t from = REC[i], to = i + 1 < RN ? REC[i + 1] : SN;
            if (to > SN || from >= to) break;
            S[chance(1, 2) ? from + below((uint32_t)(to - from)) : to - 1] ^= 1u << bit[below(9)]; break; }
        case 0: SN = below((uint32_t)SN + 1); break;                                        /* cut anywhere */
        case 1: { size_t r = REC[below((uint32_t)RN)]; if (r < SN) SN = r; if (SN && chance(1, 2)) SN--; break; } /* cut about a record */
        case 2: { uint32_t n = 1 + below(3); while (n--) push(chance(1, 2) ? 0x50000000 : (uint32_t)rnd()); break; } /* words behind */
        case 3: if (SN) S[below((uint32_t)SN)] = (uint32_t)rnd(); break;
        case 4: if (SN) S[below((uint32_t)SN)] ^= 1u << below(32); break;
        case 5: { size_t r = REC[below((uint32_t)RN)]; if (r < SN) S[r] ^= 1u << below(32); break; }       /* a first word */
        case 6: { size_t r = REC[below((uint32_t)RN)]; if (r < SN) S[r] = (S[r] & 0x0FFFFFFF) | below(16) << 28; break; }
        case 7: { size_t r = REC[below((uint32_t)RN)] + 1; if (r < SN) S[r] |= 1u << (16 + below(16)); break; }
        case 8: { size_t r = REC[below((uint32_t)RN)], t = REC[below((uint32_t)RN)]; if (r < SN && t < SN) { uint32_t x = S[r]; S[r] = S[t]; S[t] = x; } break; }
        case 9: if (SN) { size_t at = below((uint32_t)SN); memmove(S + at, S + at + 1, 4 * (SN - at - 1)); SN--; } break; /* a word lost */
        }
    }
}

/* ---- strips at the limits of the writer ---- */
static void add_flat_poly(uint32_t nv, uint32_t nl, uint32_t first) /* nv vertices in shorts counted from `first`, no edges */
{
    record();
    push(0x20000000u | nv | nl << 24);
    push(0); push(0); push(0);
    for (uint32_t k = 0; k < nl; k++) push(k);
    for (uint32_t k = 0; k < nv; k++) {
        uint32_t n = first + k;
        push(g_bits((float)(n & 255))); push(g_bits((float)(n >> 8 & 255))); push(g_bits((float)(n >> 16)));
    }
}
static void add_edge_poly(uint32_t nv, uint32_t nl, uint32_t first, uint32_t area) /* two new areas an edge, from `area` on */
{
    add_flat_poly(nv, nl, first);
    S[REC[RN - 1]] |= nv << 12;
    for (uint32_t k = 0; k < 2 * nv; k++) { push(area + k); push(0); push(0); }
}
static void gen_limit(uint32_t which)
{
    Par p; par_common(&p);
    for (int a = 0; a < 3; a++) p.boxmode[a] = 0;
    p.bad_box = 0; p.links = 0; p.edges = 2; WILD = 0;
    p.content = (int)(chance(1, 2) ? 4 : 0);
    uint32_t d = below(3); /* below, at, above */
    switch (which) {
    case 11: /* polygons */
        p.np = 16382 + d + (chance(1, 4) ? 1 : 0); p.nv_lo = p.nv_hi = 0; if (chance(1, 2)) p.bad_box = 1;
        gen_strip_of(&p); break;
    case 12: p.np = 1 + below(3); p.odd_poly = 2; p.nt = below(3); gen_strip_of(&p); break;
    case 13: case 14: { /* start and vertices */
        gen_cell(&p);
        B.lo[0] = B.lo[1] = B.lo[2] = 0; B.hi[0] = B.hi[1] = B.hi[2] = B.size[0] = B.size[1] = B.size[2] = 65535;
        for (int k = 0; k < 9; k++) S[5 + k] = g_bits(k < 3 ? 0.0f : 65535.0f);
        int distinct = which == 14;
        uint32_t n = 0, target = 65536;
        for (int i = 0; i < 32; i++) { add_flat_poly(2047, 0, distinct ? n : 0); n += 2047; }
        /* 65504 so far */
        uint32_t rest = 28 + below(7); /* start of the next: 65532 to 65538 */
        add_flat_poly(rest, 0, distinct ? n : 0); n += rest;
        uint32_t more = 3 + below(3);
        add_flat_poly(more, below(9) == 0 ? 8 : 0, distinct && chance(3, 4) ? n : below(65536)); n += more;
        if (chance(1, 3)) add_flat_poly(3, 0, 0);
        if (chance(1, 3)) { add_flat_poly(2047, 0, distinct ? n : 0); }
        (void)target;
        gen_end(); break; }
    case 25: { /* 12 to 16 in one polygon: start, vertices, areas and links about their limits together */
        gen_cell(&p);
        for (int k = 0; k < 9; k++) S[5 + k] = g_bits(k < 3 ? 0.0f : 65535.0f);
        uint32_t n = 0, na = 20 + below(7);
        S[2] = 500; /* six seeds */
        add_edge_poly((na + 1) / 2, 0, n, 100000); n += (na + 1) / 2;
        for (int i = 0; i < 31; i++) { add_flat_poly(2047, 0, n); n += 2047; }
        uint32_t want = 65529 + below(10); /* the next start */
        while (want - n > 2047) { add_flat_poly(1000, 0, n); n += 1000; }
        if (want > n) { uint32_t c = want - n; if (c < 3) c = 3; add_flat_poly(c, 0, n); n += c; }
        uint32_t nv = chance(1, 6) ? below(3) : 3 + below(12);
        add_edge_poly(nv, chance(1, 3) ? 8 : 0, chance(4, 5) ? n : 0, chance(1, 4) ? 100000 : 200000); n += nv;
        if (chance(1, 2)) add_edge_poly(below(5), chance(1, 2) ? 9 : 0, n, 300000);
        gen_end(); break; }
    case 15: /* areas */
        p.np = 1 + below(4); p.nv_hi = 12 + below(60); p.edges = chance(1, 2) ? 0 : 1; p.own_percent = 5; p.area_pool = 24 + (int)below(10);
        p.links = chance(1, 2) ? 2 : 0;
        for (int i = 0; i < 64; i++) p.pool[i] = 20000 + (uint32_t)i;
        p.nv_lo = 6; gen_strip_of(&p); break;
    case 16: p.np = 1 + below(6); p.links = 2; p.edges = 1; gen_strip_of(&p); break;
    case 17: /* ids in a leaf */
        p.np = 8191 + d + below(2); p.nv_lo = p.nv_hi = 3; p.shape = 3; p.nt = chance(1, 2) ? 0 : below(4); gen_strip_of(&p);
        if (chance(2, 3)) { /* and too many points in some leaf, before or after that one */
            SN--; RN--;
            float u = (float)unit(), v = (float)unit(); if (chance(1, 3)) u = v = 0.07f;
            uint32_t n = 2047 + below(4);
            for (uint32_t i = 0; i < n; i++) { record(); push(0x40000000u | (i & 65535)); push(g_bits(B.lo[0] + B.size[0] * u)); push(g_bits(B.lo[1] + B.size[1] * v)); push(0); }
            gen_end();
        }
        break;
    case 18: /* points in a leaf */
        p.np = below(3); p.nt = 0; p.nv_hi = 4; p.no = chance(1, 4) ? 586 : 0;
        gen_cell(&p);
        for (uint32_t i = 0; i < p.np; i++) gen_poly(&p, i);
        for (uint32_t i = 0; i < p.no; i++) gen_portal(&p);
        { uint32_t n = 2047 + d + (chance(1, 3) ? below(900) : 0); float u = (float)unit(), v = (float)unit(); int spread = chance(1, 3);
          for (uint32_t i = 0; i < n; i++) { record(); push(0x40000000u | (i & 65535));
            push(g_bits(B.lo[0] + B.size[0] * (spread && chance(1, 30) ? (float)unit() : u))); push(g_bits(B.lo[1] + B.size[1] * v)); push(coord(2)); } }
        gen_end(); break;
    case 19: p.no = 584 + d; p.np = below(3); p.nt = below(4); gen_strip_of(&p); break;
    case 20: { /* links */
        gen_cell(&p);
        for (int i = 0; i < 1170; i++) add_flat_poly(3, 7, (uint32_t)i);
        add_flat_poly(3, 1 + d, 5); /* 8191, 8192, 8193 */
        if (chance(1, 4)) add_flat_poly(3, 0, 9);
        p.np = 1171; p.no = chance(1, 3) ? 585 + below(2) : below(3);
        for (uint32_t i = 0; i < p.no; i++) gen_portal(&p);
        gen_end(); break; }
    case 21: { /* pages of several parts: many vertices and polygons, all kinds */
        par_common(&p); p.bad_box = 0; p.np = 300 + below(1500); p.no = below(200); p.nt = below(1200); p.odd_poly = 0; p.links = 1; p.own_percent = 90;
        p.area_pool = 4; gen_strip_of(&p); break; }
    case 22: { /* a great many polygons over the whole cell */
        p.np = 16383; p.nv_lo = p.nv_hi = 3; p.shape = 1; p.edges = 2; p.content = 0; for (int a = 0; a < 3; a++) p.boxmode[a] = 0;
        gen_cell(&p);
        for (uint32_t i = 0; i < p.np; i++) { record(); push(0x20000003u); push(i & 65535); push(i); push(~i);
            float x = B.lo[0] + B.size[0] * (float)(i % 128) / 128.0f, y = B.lo[1] + B.size[1] * (float)(i / 128) / 128.0f;
            for (int k = 0; k < 3; k++) { push(g_bits(x + (k == 1 ? 0.5f : 0))); push(g_bits(y + (k == 2 ? 0.5f : 0))); push(g_bits(B.lo[2])); } }
        for (uint32_t i = 0; i < 100; i++) gen_point();
        gen_end(); break; }
    case 23: { /* very many points, most of them outside the box */
        p.np = below(3); p.nt = 0; gen_cell(&p);
        for (uint32_t i = 0; i < p.np; i++) gen_poly(&p, i);
        uint32_t n = 60000 + below(12000), in = below(34000);
        for (uint32_t i = 0; i < n; i++) { record(); push(0x40000000u | (i & 65535));
            push(g_bits(i < in ? B.lo[0] + B.size[0] * (float)(i % 181) / 181.0f : B.hi[0] + 1)); push(g_bits(B.lo[1] + B.size[1] * (float)(i / 181) / 188.0f)); push(coord(2)); }
        gen_end(); break; }
    case 24: { /* vertices that differ little: strides that share bytes, axes that stand still */
        p.np = 20 + below(600); p.nv_lo = 3; p.nv_hi = 6; gen_cell(&p);
        for (int k = 0; k < 9; k++) S[5 + k] = g_bits(k < 3 ? 0.0f : 65535.0f);
        B.lo[0] = B.lo[1] = B.lo[2] = 0; B.hi[0] = B.hi[1] = B.hi[2] = B.size[0] = B.size[1] = B.size[2] = 65535;
        static const uint32_t stride[] = { 0, 0, 1, 2, 255, 256, 257, 4096, 16384, 32768, 1024, 65535, 3 };
        uint32_t st[3], many = 1 + below(3000), mix = below(3);
        for (int a = 0; a < 3; a++) st[a] = stride[below(13)];
        for (uint32_t i = 0; i < p.np; i++) {
            uint32_t nv = 3 + below(4); record(); push(0x20000000u | nv); push(0); push(0); push(0);
            for (uint32_t k = 0; k < nv; k++) { uint32_t j = below(many);
                for (int a = 0; a < 3; a++) push(g_bits((float)((mix == 0 ? j : mix == 1 ? j >> 4 * a : below(many)) * st[a] & 65535))); }
        }
        gen_end(); break; }
    default: /* several faults at once, in strips of middle size */
        par_common(&p);
        p.np = below(20); p.odd_poly = 10; p.links = 2; p.edges = 1; p.own_percent = 20; p.area_pool = 10 + (int)below(30);
        for (int i = 0; i < 64; i++) p.pool[i] = 20000 + (uint32_t)i * 7;
        p.nv_hi = 10; p.no = chance(1, 3) ? 584 + below(4) : below(3); p.nt = chance(1, 4) ? 2040 + below(20) : below(3);
        if (chance(1, 2)) { p.odd_poly = 0; p.area_pool = 2; p.links = 1; }
        p.shape = 3; if (chance(1, 2)) for (int a = 0; a < 3; a++) p.boxmode[a] = 0;
        gen_strip_of(&p); break;
    }
}

/* ---- graphs for reachable ---- */
static void gen_graph(int big)
{
    static const uint32_t near[] = { 255, 256, 257, 511, 1023, 1024, 2047, 2048, 2049, 4095, 4096 };
    static const uint32_t far_[] = { 16382, 16383, 16384, 16385, 32768, 65535, 65536, 65537, 70000 };
    Par p; par_common(&p);
    p.bad_box = chance(1, 10);
    p.own_percent = chance(1, 2) ? 100 : 60;
    uint32_t edges = below(3);
    uint32_t np = big == 0 ? 1 + below(40) : big == 1 ? (chance(1, 2) ? near[below(11)] : 200 + below(400)) : far_[below(9)];
    uint32_t no = chance(1, 3) ? 0 : below(2 * np) / (1 + below(3));
    if (big == 1 && chance(1, 2)) no = near[below(11)] + below(3);
    if (big == 2) no = chance(1, 2) ? far_[below(9)] : below(3000);
    p.np = np;
    if (chance(1, 10)) p.own = (uint32_t)rnd();
    gen_cell(&p);
    int style = (int)below(5);
    for (uint32_t i = 0; i < np; i++) {
        uint32_t ne = edges == 0 ? 0 : below(3);
        uint32_t nv = chance(8, 10) ? ne : ne ? ne - 1 : chance(1, 10) ? 1 : 0;
        record();
        push(0x20000000u | nv | ne << 12);
        push(0); push(0); push(0);
        for (uint32_t k = 0; k < 3 * nv; k++) push(0);
        for (uint32_t k = 0; k < 2 * ne; k++) {
            uint32_t to = style == 0 ? i + 1 : style == 1 ? i - 1 : style == 2 ? i + 1 + below(3) - below(5) : style == 3 ? below(np) : i ^ 1u << below(17);
            if (chance(1, 20)) to = a_poly(&p, i);
            if (chance(1, 20)) to |= (uint32_t)rnd() & ~16383u;
            push(chance(1, edges == 2 ? 4 : 12) ? an_area(&p) : p.own); push(to); push(k);
        }
    }
    for (uint32_t i = 0; i < no; i++) {
        record();
        push(0x30000000u); push(0);
        for (int k = 0; k < 6; k++) push(0);
        uint32_t from = style == 0 ? i % np : style == 1 ? np - 1 - i % np : below(np);
        uint32_t to = style == 0 ? from + 1 : style == 1 ? from - 1 : style == 4 ? from ^ 1u << below(17) : below(np);
        if (chance(1, 15)) to = (uint32_t)rnd();
        if (chance(1, 30)) from = (uint32_t)rnd();
        push((from & 65535) | to << 16);
        uint32_t a = p.own & 65535, b = p.own & 65535;
        if (chance(1, 12)) a = an_id() & 65535;
        if (chance(1, 12)) b = an_id() & 65535;
        push(a | b << 16);
        push(0);
    }
    gen_end();
}

/* ---- pages ---- */
static uint8_t *SYS, *GFX; static size_t SYSN, GFXN, SYSR, GFXR;
static void need(uint8_t **b, size_t *room, size_t n)
{
    if (n <= *room) return;
    size_t r = 2 * n + 4096;
    *b = realloc(*b, r);
    if (!*b) abort();
    memset(*b + *room, 0, r - *room);
    *room = r;
}
static void w16(uint8_t *b, size_t at, uint32_t v) { b[at] = (uint8_t)v; b[at + 1] = (uint8_t)(v >> 8); }
static void w32(uint8_t *b, size_t at, uint32_t v) { w16(b, at, v & 65535); w16(b, at + 2, v >> 16); }
static void w64(uint8_t *b, size_t at, uint64_t v) { w32(b, at, (uint32_t)v); w32(b, at + 4, (uint32_t)(v >> 32)); }
static uint32_t r32(const uint8_t *b, size_t at) { return b[at] | b[at + 1] << 8 | b[at + 2] << 16 | (uint32_t)b[at + 3] << 24; }
static uint64_t r64(const uint8_t *b, size_t at) { return r32(b, at) | (uint64_t)r32(b, at + 4) << 32; }

/* Pages from a strip, by the library itself. 0 when it refuses. */
static int pages_of_strip(void)
{
    uint64_t answer[8];
    size_t room = ynv_pages_bytes(SN);
    need(&SYS, &SYSR, room + 4096);
    static uint32_t *work; static size_t workr;
    if (workr < 4 * SN) { workr = 8 * SN; work = realloc(work, 4 * workr); }
    if (ynv_serialize(S, SN, work, 4 * SN, SYS, room, answer)) return 0;
    SYSN = answer[0]; GFXN = 0;
    return 1;
}

typedef struct { size_t at; int width, kind; } Field; /* kind 0 address, 1 count, 2 other */
static Field F[20000]; static size_t FN;
static void field(size_t at, int width, int kind) { if (FN < 20000 && at + (size_t)width <= SYSN) { F[FN].at = at; F[FN].width = width; F[FN++].kind = kind; } }
static void fields_sector(size_t s, int depth)
{
    if (s + 96 > SYSN) return;
    for (size_t i = 0; i < 3; i++) { field(s + 4 * i, 4, 2); field(s + 16 + 4 * i, 4, 2); }
    field(s + 0x2C, 8, 0);
    for (size_t i = 0; i < 4; i++) field(s + 0x34 + 8 * i, 8, 0);
    uint64_t d = r64(SYS, s + 0x2C) - 0x50000000;
    if (r64(SYS, s + 0x2C) && d + 32 <= SYSN) { field(d + 8, 8, 0); field(d + 0x10, 8, 0); field(d + 0x18, 2, 1); field(d + 0x1A, 2, 1); field(d + 0x1A, 2, 1); field(d + 0x10, 8, 0); }
    if (depth) for (size_t i = 0; i < 4; i++) { uint64_t v = r64(SYS, s + 0x34 + 8 * i); if (v) fields_sector((size_t)(v - 0x50000000), depth - 1); }
}
static void find_fields(void)
{
    static const size_t a[] = { 0x70, 0x80, 0x88, 0x118, 0x120, 0x128, 0x130 }, c[] = { 0x94, 0x14C, 0x150, 0x90, 0x138, 0x13C, 0x148 };
    static const size_t size[4] = { 6, 2, 8, 48 };
    FN = 0;
    for (int t = 0; t < 3; t++) {
        for (int i = 0; i < 7; i++) field(a[i], 8, 0);
        for (int i = 0; i < 7; i++) field(c[i], 4, 1);
        for (size_t i = 0; i < 3; i++) field(0x60 + 4 * i, 4, 2);
    }
    for (int l = 0; l < 4; l++) {
        static const size_t at[4] = { 0x70, 0x80, 0x88, 0x118 };
        size_t h = (size_t)(r64(SYS, at[l]) - 0x50000000);
        for (int t = 0; t < 3; t++) { field(h + 8, 4, 1); field(h + 0x10, 8, 0); field(h + 0x20, 4, 1); }
        size_t parts = r32(SYS, h + 0x20), table = (size_t)(r64(SYS, h + 0x10) - 0x50000000);
        for (size_t i = 0; i < parts && i < 8; i++) {
            for (int t = 0; t < 2; t++) { field(table + 16 * i, 8, 0); field(table + 16 * i + 8, 4, 1); }
            size_t items = (size_t)(r64(SYS, table + 16 * i) - 0x50000000), n = r32(SYS, table + 16 * i + 8);
            for (size_t k = 0; k < n && k < 6; k++) {
                size_t q = items + size[l] * below((uint32_t)n);
                if (l == 1) field(q, 2, 2);
                if (l == 2) field(q + 4 * below(2), 4, 2);
                if (l == 3) { field(q + 2, 2, 2); field(q + 4, 2, 2); field(q + 0x2C, 4, 2); }
            }
        }
    }
    fields_sector((size_t)(r64(SYS, 0x120) - 0x50000000), 2);
}
static uint64_t odd_address(uint64_t old)
{
    switch (below(18)) {
    case 0: return 0;
    case 1: return old + 16 * (uint64_t)(1 + below(4));
    case 2: return old - 16 * (uint64_t)(1 + below(4));
    case 3: case 4: case 5: { for (int t = 0; t < 50; t++) { Field f = F[below((uint32_t)FN)]; if (f.kind == 0) return r64(SYS, f.at); } return 0x50000000; } /* another address of these pages */
    case 6: case 7: return old + 0x10000000;      /* the same place in graphics */
    case 8: return old + 0x20000000;              /* 0x7...: graphics, far out */
    case 9: return 0x4FFFFFFF + below(3);
    case 10: return 0x50000000 + SYSN - below(200);
    case 11: return 0x60000000 + (GFXN > 200 ? GFXN : 200) - below(200);
    case 12: return old | 1ull << (31 + below(33));
    case 13: return old ^ 1ull << below(64);
    case 14: return 0x50000000 + below((uint32_t)SYSN + 1);
    case 15: return 0x60000000 + below((uint32_t)GFXN + 2);
    case 16: return rnd();
    default: return 0xFFFFFFFFFFFFFFFFull - below(100);
    }
}
static uint32_t odd_count(uint32_t old)
{
    switch (below(10)) {
    case 0: return 0;
    case 1: return old + 1;
    case 2: return old - 1;
    case 3: return 0xFFFFFFFFu - below(4);
    case 4: return 0x80000000u;
    case 5: return old + 65536;
    case 6: return old ^ 1u << below(32);
    case 7: return 1 + below(40);
    case 8: return 2 * old;
    default: return (uint32_t)rnd();
    }
}
static void damage_pages(void)
{
    find_fields();
    uint32_t g = below(5);
    if (g == 0) { need(&GFX, &GFXR, SYSN); memcpy(GFX, SYS, SYSN); GFXN = SYSN; }
    if (g == 1) { GFXN = below(5000); need(&GFX, &GFXR, GFXN + 1); for (size_t i = 0; i < GFXN; i++) GFX[i] = (uint8_t)rnd(); }
    uint32_t times = chance(1, 12) ? 0 : 1 + below(chance(1, 4) ? 6 : 2);
    while (times--) {
        uint32_t k = below(20);
        if (k < 2) { SYS[below((uint32_t)SYSN)] = (uint8_t)rnd(); continue; }
        if (k < 3) { SYS[below((uint32_t)SYSN)] ^= (uint8_t)(1u << below(8)); continue; }
        if (k < 4) { SYSN = chance(1, 2) ? below((uint32_t)SYSN + 1) : below(400) < SYSN ? SYSN - below(400 < SYSN ? 400 : (uint32_t)SYSN) : SYSN; if (SYSN < 400) { if (chance(1, 2)) SYSN = 368; return; } continue; }
        if (k < 5) { size_t more = below(3000); need(&SYS, &SYSR, SYSN + more); for (size_t i = 0; i < more; i++) SYS[SYSN + i] = chance(1, 2) ? 0 : (uint8_t)rnd(); SYSN += more; continue; }
        Field f = F[below((uint32_t)FN)];
        if (f.at + (size_t)f.width > SYSN) continue;
        if (f.kind == 0) w64(SYS, f.at, odd_address(r64(SYS, f.at)));
        else if (f.kind == 1) { uint32_t old = f.width == 2 ? (uint32_t)(SYS[f.at] | SYS[f.at + 1] << 8) : r32(SYS, f.at); old = odd_count(old); if (f.width == 2) w16(SYS, f.at, old & 65535); else w32(SYS, f.at, old); }
        else if (f.width == 2) w16(SYS, f.at, chance(1, 2) ? (uint32_t)rnd() & 65535 : (uint32_t)(SYS[f.at] | SYS[f.at + 1] << 8) ^ 1u << below(16));
        else w32(SYS, f.at, chance(1, 2) ? odd_float() : r32(SYS, f.at) ^ 1u << below(32));
    }
}

/* Pages of our own making: parts of any size in either section, shared and repeated, trees of any shape. */
static uint64_t lay(size_t size, uint8_t **at)
{
    int g = chance(1, 3);
    uint8_t **b = g ? &GFX : &SYS; size_t *n = g ? &GFXN : &SYSN, *room = g ? &GFXR : &SYSR;
    size_t pad = chance(1, 2) ? 0 : below(8);
    need(b, room, *n + pad + size + 16);
    for (size_t i = 0; i < pad; i++) (*b)[*n + i] = (uint8_t)rnd();
    size_t off = *n + pad;
    memset(*b + off, 0, size);
    *n = off + size;
    *at = *b + off;
    return (g ? 0x60000000ull : 0x50000000ull) + off;
}
static uint64_t lay_list(size_t size, uint32_t *count, uint32_t vertices, uint32_t items)
{
    uint8_t *p;
    uint32_t parts = below(6);
    uint64_t va[8]; uint32_t n[8]; uint64_t sum = 0; uint32_t most = chance(1, 20) ? 0 : 1 + below(12);
    for (uint32_t i = 0; i < parts; i++) {
        n[i] = chance(1, 6) ? 0 : 1 + below(most + 1);
        if (i && chance(1, 5)) { n[i] = n[i - 1]; va[i] = va[i - 1]; }
        else if (n[i] == 0) va[i] = chance(1, 2) ? 0 : rnd();
        else {
            va[i] = lay(size * n[i], &p);
            for (uint32_t k = 0; k < n[i]; k++) {
                uint8_t *q = p + size * k;
                for (size_t j = 0; j < size; j++) q[j] = (uint8_t)rnd();
                if (size == 2) w16(q, 0, vertices ? below(vertices + (chance(1, 200) ? 1 : 0)) : 0);
                if (size == 48) {
                    uint32_t c = items ? below(items < 9 ? items + 1 : 9) : 0, s = items >= c ? below(items - c + 1) : 0;
                    if (chance(1, 150)) s++;
                    w16(q, 2, c << 5 | below(32)); w16(q, 4, s);
                    w32(q, 0x2C, below(1 << 12) | below(8) << 12 | (chance(1, 10) ? below(1 << 17) : below(12)) << 15);
                }
            }
            if (n[i] > 1 && chance(1, 6)) n[i]--; /* less than is there */
        }
        sum += n[i];
    }
    uint8_t *t;
    uint64_t table = parts || chance(1, 2) ? lay(16 * parts, &t) : rnd();
    if (parts) for (uint32_t i = 0; i < parts; i++) { w64(t, 16 * i, va[i]); w32(t, 16 * i + 8, n[i]); w32(t, 16 * i + 12, (uint32_t)rnd()); }
    uint8_t *h;
    uint64_t header = lay(48, &h);
    for (size_t i = 0; i < 48; i++) h[i] = (uint8_t)rnd();
    if (chance(1, 100)) sum += 1 - 2 * below(2);
    w32(h, 8, (uint32_t)sum); w64(h, 0x10, table); w32(h, 0x20, parts);
    *count = (uint32_t)sum;
    if (sum == 0 && chance(1, 2)) return 0;
    return header;
}
static uint64_t SECT[64]; static uint32_t SECTN;
static uint64_t lay_sector(int depth)
{
    uint8_t *s;
    if (SECTN && chance(1, 12)) return SECT[below(SECTN)]; /* shared */
    uint8_t *d, *q; uint64_t data = 0;
    uint64_t subs[4] = { 0, 0, 0, 0 };
    if (depth) for (int i = 0; i < 4; i++) if (chance(1, 2)) subs[i] = lay_sector(depth - 1);
    if (chance(2, 3)) {
        uint32_t n = chance(1, 2) ? 0 : below(9); uint64_t pts = rnd();
        if (n) { pts = lay(8 * n, &q); for (uint32_t k = 0; k < 8 * n; k++) q[k] = (uint8_t)rnd(); }
        data = lay(32, &d);
        for (int i = 0; i < 32; i++) d[i] = (uint8_t)rnd();
        w64(d, 0x10, pts); w16(d, 0x1A, n);
    }
    uint64_t va = lay(96, &s);
    for (int i = 0; i < 96; i++) s[i] = (uint8_t)rnd();
    w64(s, 0x2C, data);
    for (size_t i = 0; i < 4; i++) w64(s, 0x34 + 8 * i, subs[i]);
    if (SECTN < 64) SECT[SECTN++] = va;
    return va;
}
/* A tree of exactly n visits, of few sectors: equal subtrees are one sector reached several times. */
static uint64_t tree_of(uint32_t n)
{
    static uint64_t memo[8]; static uint32_t sizes[8]; static int used;
    uint8_t *s, *d, *q;
    if (n == 0) { used = 0; return 0; } /* start anew */
    for (int i = 0; i < used; i++) if (sizes[i] == n) return memo[i];
    uint64_t subs[4] = { 0, 0, 0, 0 };
    if (n > 1) {
        uint32_t m = n - 1 < 3 ? n - 1 : 1 + below(3), k = (n - 1) / m, r = (n - 1) % m, skip = below(4), at = 0;
        if (r && m == 4) abort();
        for (uint32_t i = 0; i < 4; i++) {
            if (i == skip && m + (r != 0) < 4) continue;
            if (at < m) subs[i] = tree_of(k);
            else if (at == m && r) subs[i] = tree_of(r);
            at++;
        }
        if (at < m + (r != 0)) abort();
    }
    uint64_t data = 0;
    if (chance(1, 4)) {
        uint32_t c = below(3); uint64_t pts = rnd();
        if (c) { pts = lay(8 * c, &q); for (uint32_t k = 0; k < 8 * c; k++) q[k] = (uint8_t)rnd(); }
        data = lay(32, &d); w64(d, 0x10, pts); w16(d, 0x1A, c);
        if (chance(1, 300)) data++;
    }
    uint64_t va = lay(96, &s);
    w64(s, 0x2C, data);
    for (size_t i = 0; i < 4; i++) w64(s, 0x34 + 8 * i, subs[i]);
    if (used < 8) { memo[used] = va; sizes[used++] = n; }
    return va;
}

/* Pages whose list counts go past 2^32: 32,768 parts that are all the same items. */
static void gen_wrap(void)
{
    uint8_t *t, *h;
    SYSN = 368; GFXN = 0;
    need(&SYS, &SYSR, 2000000); need(&GFX, &GFXR, 4096);
    memset(SYS, 0, 368);
    uint32_t list = below(4);
    static const uint32_t size[4] = { 6, 2, 8, 48 }; static const size_t at[4] = { 0x70, 0x80, 0x88, 0x118 };
    uint64_t root = lay(96, &t); memset(t, 0, 96);
    uint32_t items = 262144 / size[list] * 2;
    uint64_t block = lay((size_t)items * size[list], &t);
    uint32_t parts = (uint32_t)((0x100000000ull + items - 1) / items) + below(2);
    uint64_t sum = (uint64_t)parts * items;
    uint64_t table = lay(16 * (size_t)parts, &t);
    for (uint32_t i = 0; i < parts; i++) { w64(t, 16 * (size_t)i, block); w32(t, 16 * (size_t)i + 8, items); }
    if (chance(1, 4)) w64(t, 16 * (size_t)(parts - 1), block + 0x1000000);
    uint64_t header = lay(48, &h);
    w32(h, 8, (uint32_t)sum); w64(h, 0x10, table); w32(h, 0x20, parts);
    w64(SYS, 0x120, root); w64(SYS, at[list], header);
}

/* Lists of very many parts over few bytes: parts are overlapping stretches of one pool of items; runs anywhere in them. */
static uint32_t many_parts(uint32_t most_parts, uint32_t most_items, uint32_t pool, uint32_t *n, uint32_t *off)
{
    uint32_t parts = 1 + below(most_parts), kind = below(5), total = 0;
    for (uint32_t i = 0; i < parts; i++) {
        uint32_t c;
        switch (kind == 4 ? below(4) : kind) {
        case 0: c = below(3); break;
        case 1: c = 1 + below(10); break;
        case 2: c = chance(1, 10) ? 0 : 1 + below(500); break;
        default: c = chance(1, 3) ? 0 : 1 + below(pool); break;
        }
        if (chance(1, 12)) c = 0;
        if (c > pool) c = pool;
        if (c > most_items - total) c = most_items - total;
        n[i] = c; off[i] = below(pool - c + 1);
        total += c;
    }
    return parts;
}
static void gen_many(void)
{
    uint8_t *h, *p;
    static uint32_t n[4096], off[4096];
    static const uint32_t size[4] = { 6, 2, 8, 48 }; static const size_t at[4] = { 0x70, 0x80, 0x88, 0x118 };
    SYSN = 368; GFXN = 0;
    need(&SYS, &SYSR, 4096); need(&GFX, &GFXR, 4096);
    for (int i = 0; i < 368; i++) SYS[i] = (uint8_t)rnd();
    for (int a = 0; a < 3; a++) a_box(a, 0);
    uint8_t *r; uint64_t root = lay(96, &r);
    for (size_t a = 0; a < 3; a++) { w32(r, 4 * a, g_bits(B.lo[a])); w32(r, 16 + 4 * a, g_bits(B.hi[a])); w32(SYS, 0x60 + 4 * a, g_bits(B.size[a])); }
    uint64_t total[4] = { 0, 0, 0, 0 };
    uint32_t bad = chance(1, 2) ? 0 : chance(1, 2) ? 3000 : 60; /* one index in so many is no vertex */
    uint32_t large = chance(1, 6);
    for (int l = 0; l < 4; l++) {
        uint32_t pool = l == 3 ? 1 + below(200) : 1 + below(chance(1, 4) ? 4096 : 300);
        uint32_t most = l == 3 ? 1 + below(large ? 60 : 2000) : chance(1, 3) ? 70000 : 1 + below(3000);
        uint32_t parts = many_parts(chance(1, 4) ? 3000 : chance(1, 2) ? 100 : 6, most, pool, n, off);
        uint64_t items = lay((size_t)pool * size[l], &p);
        for (uint32_t k = 0; k < pool; k++) {
            uint8_t *q = p + (size_t)k * size[l];
            for (size_t j = 0; j < size[l]; j++) q[j] = (uint8_t)rnd();
            if (l == 1) {
                uint32_t v = total[0] ? below((uint32_t)(total[0] < 65536 ? total[0] : 65536)) : 0;
                if (bad && chance(1, bad) && total[0] < 65536) v = (uint32_t)total[0] + below((uint32_t)(65536 - total[0]));
                w16(q, 0, v);
            }
            if (l == 3) {
                uint32_t room = (uint32_t)(total[1] < total[2] ? total[1] : total[2]), c = below(large ? 2048 : 13);
                if (c > room) c = room;
                uint32_t s = below(room - c + 1);
                if (chance(1, 10)) s = room - c;
                if (chance(1, 2000)) s++;
                if (s > 65535) s = 65535;
                w16(q, 2, c << 5 | below(32)); w16(q, 4, s);
            }
        }
        uint64_t table = lay(16 * (size_t)parts, &p);
        for (uint32_t i = 0; i < parts; i++) {
            w64(p, 16 * (size_t)i, n[i] ? items + (uint64_t)off[i] * size[l] : chance(1, 2) ? 0 : rnd());
            w32(p, 16 * (size_t)i + 8, n[i]); total[l] += n[i];
        }
        uint64_t head = lay(48, &h);
        w32(h, 8, (uint32_t)total[l] + (chance(1, 80) ? 1 : 0)); w64(h, 0x10, table); w32(h, 0x20, parts);
        w64(SYS, at[l], head);
    }
    uint64_t links = lay(40, &p);
    w64(SYS, 0x120, root); w64(SYS, 0x130, links); w32(SYS, 0x150, 20); w32(SYS, 0x14C, 0); w32(SYS, 0x94, below(40));
}

static void gen_pages(void)
{
    uint8_t *h, *p;
    SYSN = 368; GFXN = 0; SECTN = 0;
    need(&SYS, &SYSR, 4096); need(&GFX, &GFXR, 4096);
    for (int i = 0; i < 368; i++) SYS[i] = (uint8_t)rnd();
    int m = chance(2, 3) ? 0 : 1 + (int)below(9);
    for (int a = 0; a < 3; a++) a_box(a, m);
    uint32_t nv, ni, ne, np;
    uint64_t lv = lay_list(6, &nv, 0, 0), li = lay_list(2, &ni, nv, 0), le = lay_list(8, &ne, 0, 0), lp = lay_list(48, &np, 0, ni < ne ? ni : ne);
    uint64_t root;
    if (chance(1, 60)) { tree_of(0); root = tree_of(4093 + below(7)); }
    else root = lay_sector(chance(1, 20) ? 5 : (int)below(4));
    uint64_t lands = root & 0x20000000 ? root - 0x60000000 : root - 0x50000000;
    p = root & 0x20000000 ? GFX + lands : SYS + lands;
    for (size_t a = 0; a < 3; a++) { w32(p, 4 * a, g_bits(B.lo[a])); w32(p, 16 + 4 * a, g_bits(B.hi[a])); }
    if (chance(1, 60)) w32(p, 4 * below(8), odd_float());
    if (chance(1, 40)) { /* a circle */ w64(p, 0x34 + 8 * below(4), root); }
    uint32_t no = chance(1, 2) ? 0 : below(6), nl = chance(1, 4) ? 0 : chance(1, 300) ? 60000 + below(80000) : below(20);
    uint64_t portals = rnd(), links = rnd();
    if (no) { portals = lay(28 * no, &h); for (uint32_t k = 0; k < 28 * no; k++) h[k] = (uint8_t)rnd(); }
    if (nl || chance(1, 2)) { links = lay(2 * nl, &h); for (uint32_t k = 0; k < 2 * nl; k++) h[k] = (uint8_t)rnd(); }
    h = SYS;
    for (size_t a = 0; a < 3; a++) w32(h, 0x60 + 4 * a, g_bits(B.size[a]));
    w64(h, 0x70, lv); w64(h, 0x80, li); w64(h, 0x88, le); w64(h, 0x118, lp); w64(h, 0x120, root); w64(h, 0x128, portals); w64(h, 0x130, links);
    w32(h, 0x94, chance(1, 3) ? below(33) : chance(1, 2) ? 32 : (uint32_t)rnd());
    w32(h, 0x14C, no); w32(h, 0x150, nl);
    if (chance(1, 10)) w64(h, 0x70 + 8 * below(2) * 2, 0);
    if (chance(1, 20)) { FN = 0; for (int i = 0; i < 3; i++) field(0x70 + 8 * (size_t)i, 8, 0); field(0x118, 8, 0); field(0x120, 8, 0); field(0x128, 8, 0); field(0x130, 8, 0);
        Field f = F[below((uint32_t)FN)]; w64(SYS, f.at, odd_address(r64(SYS, f.at))); }
    if (chance(1, 30)) SYSN -= below(60) < SYSN ? below(60) : 0;
    if (chance(1, 30) && GFXN) GFXN = below((uint32_t)GFXN + 1);
}
#endif
