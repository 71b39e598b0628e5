/* Cases too large or too particular for the generator. */
#include "gen.h"
#include <time.h>
static int bad;
static double now(void) { struct timespec t; clock_gettime(CLOCK_PROCESS_CPUTIME_ID, &t); return (double)t.tv_sec + (double)t.tv_nsec * 1e-9; }
#define SAY(ok, ...) do { printf("%s ", (ok) ? "ok  " : "DIFFERENCE"); printf(__VA_ARGS__); printf("\n"); fflush(stdout); if (!(ok)) bad++; } while (0)

static void empty(uint32_t content, uint32_t area)
{
    SN = RN = 0; push(0x10000000); push(content); push(area); push(0); push(0);
    for (int i = 0; i < 9; i++) push(g_bits(i < 3 ? 0.0f : 64.0f));
    push(0x50000000);
}

int main(void)
{
    uint64_t al[8], am[8];
    static uint32_t work[100]; static uint8_t pages[8192], mine[8192];
    /* P12: "the empty vehicle cell is 688 bytes, total 128; the empty grid cell 3088" */
    empty(4, 10000);
    ynv_serialize(S, SN, work, 60, pages, 8192, al); g_serialize(S, SN, work, 60, mine, 8192, am);
    SAY(al[0] == 688 && am[0] == 688 && r32(pages, 0x144) == 128 && r32(mine, 0x144) == 128, "P12 vehicle");
    empty(1, 0);
    ynv_serialize(S, SN, work, 60, pages, 8192, al); g_serialize(S, SN, work, 60, mine, 8192, am);
    SAY(al[0] == 3088 && am[0] == 3088, "P12 grid");
    /* P7: "area 0 seeds 0, 16383, 4294967196, 4294967295, 1, 100" */
    SAY(r32(pages, 0x94) == 6 && r32(pages, 0x98) == 0 && r32(pages, 0x9C) == 16383 && r32(pages, 0xA0) == 4294967196u && r32(pages, 0xA4) == 4294967295u && r32(pages, 0xA8) == 1 && r32(pages, 0xAC) == 100, "P7");
    empty(1, 16384);
    ynv_serialize(S, SN, work, 60, pages, 8192, al);
    SAY(r32(pages, 0x94) == 5, "P8");

    /* Derived words past 2^32: 233,081 polygons of 2,047 vertices make 15 + 18,427 x 233,081 = 2^32 + 16,306 words. The strip lent has
     * 20,000: 2, and nothing is changed. The other way about with one polygon that names a vertex that isn't there: 38 at its number. */
    for (int round = 0; round < 4; round++) {
        /* 0: as said; 1: the last polygon's run goes past the edges; 2: its last index is no vertex; 3: portals not good */
        uint8_t *t, *h;
        SYSN = 368; GFXN = 0; need(&SYS, &SYSR, 200000); need(&GFX, &GFXR, 4096); memset(SYS, 0, 368);
        static const size_t at[4] = { 0x70, 0x80, 0x88, 0x118 }; static const uint32_t size[4] = { 6, 2, 8, 48 };
#define LAY(n) (SYSN = (SYSN + 15) / 16 * 16, t = SYS + SYSN, memset(t, 0, n), SYSN += (n), 0x50000000ull + SYSN - (n))
        uint64_t root = LAY(96); w64(SYS, 0x120, root);
        for (int l = 0; l < 4; l++) {
            uint32_t n = l == 0 ? 1 : l < 3 ? (l == 2 && round == 1 ? 2047 : 2048) : 341, parts = l < 3 ? 1 : 685, total = l < 3 ? n : 233081;
            uint64_t items = LAY((size_t)n * size[l]);
            if (l == 1 && round == 2) w16(t, 2 * 2047, 1);
            if (l == 3) for (uint32_t k = 0; k < n; k++) w16(t, 48 * k + 2, 2047 << 5);
            uint64_t last = items;
            if (l == 3) { last = LAY(48); w16(t, 2, 2047 << 5); w16(t, 4, round == 1 || round == 2 ? 1 : 0); }
            uint64_t table = LAY(16 * (size_t)parts);
            for (uint32_t i = 0; i < parts; i++) { w64(t, 16 * i, items); w32(t, 16 * i + 8, n); }
            if (l == 3) { w32(t, 16 * 683 + 8, 233080 - 683 * 341); w64(t, 16 * 684, last); w32(t, 16 * 684 + 8, 1); }
            uint64_t head = LAY(48); h = t; w32(h, 8, total); w64(h, 0x10, table); w32(h, 0x20, parts);
            w64(SYS, at[l], head);
        }
        if (round == 3) w32(SYS, 0x14C, 1);
        static const uint32_t want[] = { 2, 37, 38, 39 }; static const uint64_t place[] = { 0, 233080, 233080, 0 };
        static uint32_t strip[20001]; memset(strip, 0x5A, sizeof strip); memset(al, 0x77, 64);
        double t0 = now();
        uint32_t r = ynv_parse(SYS, SYSN, NULL, 0, strip, 20000, al);
        int same = 1; for (int i = 0; i < 20001; i++) same &= strip[i] == 0x5A5A5A5A;
        SAY(r == want[round] && al[0] == place[round] && al[1] == 0x7777777777777777ull && same, "2^32 + 16,306 derived words in pages of %zu bytes: refused %u at %llu, %.2f s", SYSN, r, (unsigned long long)al[0], now() - t0);
    }
    double t0;

    /* Text with numbers of up to seven digits, and lent lengths about its own. */
    for (int round = 0; round < 2; round++) {
        reseed(5, (uint64_t)round);
        Par p; par_common(&p); for (int a = 0; a < 3; a++) p.boxmode[a] = 0; p.bad_box = 0; p.edges = 2; p.links = 0; p.np = round ? 340000 : 40000; p.nv_lo = p.nv_hi = 3; p.odd_poly = 0;
        gen_strip_of(&p);
        size_t room = ynv_obj_bytes(SN); uint8_t *a = malloc(room), *b = malloc(room);
        for (int k = -1; k < 3; k++) {
            size_t len = room;
            if (k >= 0) len = am[0] + (size_t)k - 1;
            static uint64_t keep; if (k < 0) keep = 0; else len = keep + (size_t)k - 1;
            memset(a, 7, room); memset(b, 7, room); memset(al, 3, 64); memset(am, 3, 64);
            t0 = now(); uint32_t rm = g_export_obj(S, SN, a, len, am); double t1 = now(); uint32_t rl = ynv_export_obj(S, SN, b, len, al);
            SAY(rl == rm && !memcmp(al, am, 64) && !memcmp(a, b, room), "export_obj of %u polygons, %zu bytes lent: %u, %llu; mine %.2f s, library %.2f s", p.np, len, rl, (unsigned long long)al[0], t1 - t0, now() - t1);
            if (k < 0) keep = am[0];
        }
        free(a); free(b);
    }
    /* As many portals as hurt: 65,536 polygons in a chain from the last to the first, by portals in both orders. */
    for (int round = 0; round < 4; round++) {
        uint32_t np = round & 1 ? 20000 : 3000, no = round & 2 ? 70000 : 65535;
        SN = RN = 0; empty(4, 7); SN--;
        for (uint32_t i = 0; i < np; i++) { push(0x20000000); push(0); push(0); push(0); }
        for (uint32_t i = 0; i < no; i++) { push(0x30000000); for (int k = 0; k < 7; k++) push(0);
            uint32_t f = round & 1 ? i % np : np - 1 - i % np; push(f | (f ? f - 1 : 0) << 16); push(7 | 7 << 16); push(0); }
        push(0x50000000);
        uint8_t *a = malloc(np + 9), *b = malloc(np + 9); memset(a, 8, np + 9); memset(b, 8, np + 9); memset(al, 3, 64); memset(am, 3, 64);
        uint32_t rm = g_reachable(S, SN, np - 1, a, np + 9, am); t0 = now(); uint32_t rl = ynv_reachable(S, SN, np - 1, b, np + 9, al);
        SAY(rl == rm && !memcmp(al, am, 64) && !memcmp(a, b, np + 9), "reachable: %u polygons, %u portals, %llu marked, %.2f s", np, no, (unsigned long long)al[0], now() - t0);
        free(a); free(b);
    }
    printf("special: %d differences\n", bad);
    return bad != 0;
}
