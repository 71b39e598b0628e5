/* cell_for_position on all 2^32 floats (x goes up, y is x with its bits turned over), library against mine. */
#include "g.h"
#include "/work/main/include/ynv.h"
int main(void)
{
    unsigned long diffs = 0, other = 0; /* other: floats for which d x (1/150) would give another cell */
    uint64_t al[8], am[8];
    for (uint64_t i = 0; i < 0x100000000ull; i++) {
        float x = g_float((uint32_t)i), y = g_float(~(uint32_t)i);
        g_cell_for_position(x, y, am);
        float d = x + 6000.0f, f = floorf(d * (1.0f / 150.0f));
        if (f >= 0 && f <= 99 && (uint64_t)f != am[0]) other++;
        uint32_t r = ynv_cell_for_position(x, y, al);
        if (r || al[0] != am[0] || al[1] != am[1] || al[2] | al[3] | al[4] | al[5] | al[6] | al[7])
            if (++diffs < 10) printf("DIFFERENCE %08X: library %llu %llu mine %llu %llu\n", (uint32_t)i, (unsigned long long)al[0], (unsigned long long)al[1], (unsigned long long)am[0], (unsigned long long)am[1]);
    }
    printf("cell_for_position: all 2^32 floats, %lu differences (d x (1/150) would differ at %lu)\n", diffs, other);
    for (uint32_t cx = 0; cx < 300; cx++) for (uint32_t cy = 0; cy < 300; cy++) {
        memset(al, 9, 64); memset(am, 9, 64);
        if (g_cell_bounds(cx, cy, am) != ynv_cell_bounds(cx, cy, al) || memcmp(al, am, 64)) printf("DIFFERENCE bounds %u %u\n", cx, cy);
    }
    return diffs != 0;
}
