/* Request No. 8's law, tried with the library's own reading and writing (requests 1 to 7) and with mine:
 * "if each axis has an extent from 128 to 4096, and lo and lo + extent lie within -16384 to 16384, then a short turned into a
 * coordinate and back is the same short. It follows for such boxes that, where the call accepts given pages, a second run on its own
 * result, with any graphics section and buffers no shorter, is accepted and gives the same bytes."
 * resave_law SEED COUNT */
#include "gen.h"
static uint8_t *p1, *p2, *p3; static uint32_t *st, *wk;
static float law_lo(float *extent)
{
    for (;;) {
        float e = (float)(128 + unit() * (4096 - 128)), lo = (float)(unit() * 32768 - 16384);
        if (chance(1, 6)) e = chance(1, 2) ? 128.0f : 4096.0f;
        if (chance(1, 6)) lo = -16384.0f;
        if (chance(1, 6)) lo = 16384.0f - e;
        if (chance(1, 6)) lo = (float)(unit() * 1e-3);
        if (lo >= -16384.0f && lo + e <= 16384.0f && e >= 128.0f && e <= 4096.0f) { *extent = e; return lo; }
    }
}
int main(int argc, char **argv)
{
    uint64_t seed = argc > 1 ? strtoull(argv[1], 0, 0) : 1, count = argc > 2 ? strtoull(argv[2], 0, 0) : 10000;
    size_t big = 7000000, words = 900000;
    p1 = malloc(big); p2 = malloc(big); p3 = malloc(big); st = malloc(4 * words); wk = malloc(16 * words);
    unsigned long first = 0, refused[64] = { 0 }, bad = 0, pushed = 0;
    for (uint64_t i = 0; i < count; i++) {
        reseed(seed * 77 + 5, i);
        SYSN = GFXN = 0;
        if (i % 3 == 0) { for (int t = 0; t < 20; t++) { gen_strip(0); if (pages_of_strip()) break; } if (SYSN < 688) gen_pages(); else if (chance(1, 2)) damage_pages(); }
        else if (i % 30 == 1) gen_many();
        else gen_pages();
        /* give the pages a box of the law, where they have a header and a root */
        if (SYSN < 368) continue;
        uint64_t root = r64(SYS, 0x120); uint8_t *b = NULL;
        if ((root >> 28) == 6 && root - 0x60000000 + 96 <= GFXN) b = GFX + (root - 0x60000000);
        if ((root >> 28) == 5 && root - 0x50000000 + 96 <= SYSN) b = SYS + (root - 0x50000000);
        if (!b || b == SYS) continue;
        for (size_t a = 0; a < 3; a++) {
            float e, lo = law_lo(&e);
            w32(b, 4 * a, g_bits(lo)); w32(SYS, 0x60 + 4 * a, g_bits(e));
            w32(b, 16 + 4 * a, chance(3, 4) ? g_bits(lo + e) : g_bits((float)(lo + unit() * 300 - 20))); /* max is free */
        }
        uint64_t an[8], aw[8];
        uint32_t r = ynv_parse(SYS, SYSN, GFX, GFXN, st, words, an);
        if (r) { refused[r]++; continue; }
        r = ynv_serialize(st, an[0], wk, 4 * an[0], p1, big, aw);
        if (r) { refused[r]++; continue; }
        first++;
        uint64_t n1 = aw[0], w1 = an[0];
        for (int who = 0; who < 2; who++) {
            /* strip as long as the first run needed, target as long as its result */
            uint32_t (*parse)(const uint8_t *, size_t, const uint8_t *, size_t, uint32_t *, size_t, uint64_t *) = who ? g_parse : ynv_parse;
            uint32_t (*ser)(const uint32_t *, size_t, uint32_t *, size_t, uint8_t *, size_t, uint64_t *) = who ? g_serialize : ynv_serialize;
            r = parse(p1, n1, GFX, GFXN, st, w1, an);
            if (r) { printf("LAW 8 BROKEN case %llu: second reading refused %u\n", (unsigned long long)i, r); bad++; break; }
            r = ser(st, an[0], wk, 4 * w1, p2, n1, aw);
            if (r || aw[0] != n1 || memcmp(p1, p2, n1)) { printf("LAW 8 BROKEN case %llu: second writing %u, %llu of %llu bytes\n", (unsigned long long)i, r, (unsigned long long)aw[0], (unsigned long long)n1); bad++; break; }
            if (aw[3]) pushed++;
        }
    }
    printf("resave law: %llu pages, %lu saved and saved again, %lu broken, %lu second runs that report pushed coordinates; refused in the first run:", (unsigned long long)count, first, bad, pushed);
    for (int i = 0; i < 64; i++) if (refused[i]) printf(" %d:%lu", i, refused[i]);
    printf("\n");
    return bad != 0;
}
