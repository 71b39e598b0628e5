/* Addresses far out: sections of gigabytes, of which only a few pages exist (the rest reads as zero without memory). */
#include "g.h"
#include <sys/mman.h>
#include "/work/main/include/ynv.h"
static uint8_t *section(size_t n)
{
    void *p = mmap(NULL, n, PROT_READ | PROT_WRITE, MAP_PRIVATE | MAP_ANONYMOUS | MAP_NORESERVE, -1, 0);
    return p == MAP_FAILED ? NULL : p;
}
static void w16(uint8_t *b, size_t at, uint32_t v) { b[at] = (uint8_t)v; b[at + 1] = (uint8_t)(v >> 8); }
static void w32(uint8_t *b, size_t at, uint32_t v) { w16(b, at, v & 65535); w16(b, at + 2, v >> 16); }
static void w64(uint8_t *b, size_t at, uint64_t v) { w32(b, at, (uint32_t)v); w32(b, at + 4, (uint32_t)(v >> 32)); }
int main(void)
{
    size_t SN = (size_t)5 << 30, GN = (size_t)5 << 30;
    uint8_t *s = section(SN), *g = section(GN);
    if (!s || !g) { puts("no room for such sections"); return 1; }
    static const uint64_t A[] = { 0x50000000, 0x50001000, 0x58000000, 0x5FFFFF00, 0x60000000, 0x60001000, 0x6FFFFF00, 0x70000000, 0x70001000,
        0x7FFFFF00, 0x80000000, 0x90000000, 0xC0000000, 0xD0000000, 0xD0001000, 0xDFFFFF00, 0xE0000000, 0xE0001000, 0xF0000000, 0xF0001000, 0x10000000, 0x40000000,
        0x4FFFFFFF, 0x20000000, 0x30000000, 0x100000000, 0x110000000, 0x140000000, 0x150000000, 0x150001000, 0x160000000, 0x170000000, 0x190000000, 0x1D0000000, 0x15FFFFF00,
        0x18FFFFFF0, 0x1900000000, 0x8000000050000000, 0xFFFFFFFFFFFFFFFF, 0xFFFFFFFF50000000, 0xFFFFFFFF60000000 };
    size_t N = sizeof A / sizeof *A;
    static uint32_t mine[4096], lib[4096];
    unsigned long calls = 0, diffs = 0, hist[64] = { 0 };
    /* lens: the sections' whole length, cut lengths around the places named */
    static const uint64_t cut[] = { 0, 1, 2, 3, 4, 5 };
    for (size_t i = 0; i < N; i++) for (size_t j = 0; j < N; j++) for (size_t c = 0; c < 6; c++) {
        memset(s, 0, 368);
        w64(s, 0x120, A[i]); /* the root */
        w64(s, 0x128, A[j]); /* one portal */
        w32(s, 0x14C, 1);
        size_t sn = SN, gn = GN;
        if (cut[c] == 1) sn = 0x80001000 + 27;
        if (cut[c] == 2) gn = 0x10000000 + 96;
        if (cut[c] == 3) gn = 0x10000000 + 95;
        if (cut[c] == 4) { sn = 0x100000000ull + 96; gn = 0x80000000ull + 28; }
        if (cut[c] == 5) { sn = 0x80000000ull + 95; gn = 0x90001000ull; }
        /* a mark where root and portal stand, if they stand anywhere: the bytes of the address itself */
        for (int k = 0; k < 2; k++) {
            uint64_t a = k ? A[j] : A[i], off; uint8_t *b; size_t n;
            if ((a & 0x60000000) == 0x60000000) { b = g; n = GN; off = a - 0x60000000; }
            else if ((a & 0x50000000) == 0x50000000) { b = s; n = SN; off = a - 0x50000000; }
            else continue;
            if (off < 368 && b == s) continue;
            if (off + 96 <= n && off + 96 > off) { if (k) { w32(b, off, (uint32_t)(a >> 8)); w32(b, off + 16, (uint32_t)(a >> 12)); } else w32(b, off, 0x3F800000 + (uint32_t)(a >> 28)); }
        }
        uint64_t al[8], am[8];
        memset(al, 0x5A, 64); memset(am, 0x5A, 64); memset(mine, 0x33, sizeof mine); memset(lib, 0x33, sizeof lib);
        uint32_t rm = g_parse(s, sn, g, gn, mine, 4096, am), rl = ynv_parse(s, sn, g, gn, lib, 4096, al);
        calls++; hist[rm < 64 ? rm : 63]++;
        if (rm != rl || memcmp(al, am, 64) || memcmp(mine, lib, sizeof mine)) {
            if (++diffs < 10) printf("DIFFERENCE root %llX portal %llX cut %zu: library %u %llu, mine %u %llu\n", (unsigned long long)A[i], (unsigned long long)A[j], c, rl, (unsigned long long)al[0], rm, (unsigned long long)am[0]);
        }
    }
    /* a part table of 2^28 + 1 parts, all of count 0, in graphics: 16 x count is 2^32 + 16 */
    munmap(g, GN); g = section(GN);
    for (int k = 0; k < 2; k++) {
        memset(s, 0, 368); memset(s + 0x1000, 0, 4096);
        w64(s, 0x120, 0x50001000); w64(s, 0x88, 0x50001100); w64(s, 0x1100 + 0x10, 0x60000000); w32(s, 0x1100 + 0x20, 0x10000001);
        uint64_t al[8], am[8];
        memset(al, 0x5A, 64); memset(am, 0x5A, 64); memset(mine, 0x33, sizeof mine); memset(lib, 0x33, sizeof lib);
        size_t gn = 16 * (size_t)0x10000001 - (size_t)k;
        uint32_t rm = g_parse(s, 8192, g, gn, mine, 4096, am), rl = ynv_parse(s, 8192, g, gn, lib, 4096, al);
        calls++; hist[rm < 64 ? rm : 63]++;
        if (rm != rl || memcmp(al, am, 64) || memcmp(mine, lib, sizeof mine)) { diffs++; printf("DIFFERENCE long table, %d: library %u %llu, mine %u %llu\n", k, rl, (unsigned long long)al[0], rm, (unsigned long long)am[0]); }
        else printf("ok   part table of 2^28 + 1 parts, graphics of %zu bytes: %u\n", gn, rm);
    }
    printf("huge: %lu calls, %lu differences; numbers:", calls, diffs);
    for (int i = 0; i < 64; i++) if (hist[i]) printf(" %d:%lu", i, hist[i]);
    printf("\n");
    return diffs != 0;
}
