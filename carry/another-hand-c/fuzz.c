/* fuzz CALL SEED FROM COUNT: cases FROM .. FROM + COUNT - 1 of a call, library against the C versions. Prints each difference (the
 * first five at length, shrunk), then how often each number came. */
#include "gen.h"
#include <sys/mman.h>
#include <time.h>

/* ---- lent memory: ends where an unreadable page begins, 64 known bytes before it ---- */
typedef struct { uint8_t *base; size_t room; } Arena;
static Arena new_arena(size_t room)
{
    room = (room + 4095) / 4096 * 4096;
    uint8_t *b = mmap(NULL, room + 4096, PROT_READ | PROT_WRITE, MAP_PRIVATE | MAP_ANONYMOUS | MAP_NORESERVE, -1, 0);
    if (b == MAP_FAILED) abort();
    if (mprotect(b + room, 4096, PROT_NONE)) abort();
    Arena a = { b, room };
    return a;
}
static void *lend(Arena *a, size_t bytes)
{
    if (bytes + 64 > a->room) { fprintf(stderr, "arena too small: %zu\n", bytes); exit(2); }
    uint8_t *p = a->base + a->room - bytes;
    memset(p - 64, 0xA7, 64);
    return p;
}
static int front_ok(const void *p) { const uint8_t *b = p; for (int i = 1; i <= 64; i++) if (b[-i] != 0xA7) return 0; return 1; }

static Arena AIN, AIN2, AOUT, AWORK;
static uint8_t *copy, *mine; static size_t copyr, miner;
static void room_for(uint8_t **b, size_t *r, size_t n) { if (n + 1 > *r) { *r = 2 * n + 4096; *b = realloc(*b, *r); if (!*b) abort(); } }
static void fill(uint8_t *b, size_t n, uint64_t salt)
{
    for (size_t i = 0; i + 8 <= n; i += 8) { salt = salt * 6364136223846793005ull + 1442695040888963407ull; uint64_t z = salt ^ salt >> 29; memcpy(b + i, &z, 8); }
    for (size_t i = n & ~(size_t)7; i < n; i++) b[i] = (uint8_t)(salt >> (8 * (i & 7)));
}

enum { PARSE, SERIALIZE, SEAMS, PICK, SPOT, OBJ, REACH, POSITION, BOUNDS, CALLS };
static const char *NAMES[] = { "parse", "serialize", "count_seams", "pick_poly", "spot_for_position", "export_obj", "reachable", "cell_for_position", "cell_bounds" };
static uint64_t HIST[64]; static uint64_t DIFFS, TELLING; /* TELLING: accepted, and the answer is more than nothing */
static char WHY[400];

/* One call on S, SN (or SYS, GFX) with the arguments. Gives 1 where library and version differ, WHY says how. */
typedef struct { size_t out, work; uint64_t a, b; int null; } Args;
static uint32_t LAST;

/* The ABI leaves the upper 32 bits of a register undefined where a parameter is smaller: fill them. */
typedef uint32_t (*Pick)(const uint32_t *, size_t, uint64_t, uint64_t, uint64_t *);
typedef uint32_t (*Bounds)(uint64_t, uint64_t, uint64_t *);

static int one(int call, Args g)
{
    Pick pick = (Pick)(void *)ynv_pick_poly; Bounds bounds = (Bounds)(void *)ynv_cell_bounds;
    uint64_t al[8], am[8];
    uint32_t rl = 0, rm = 0;
    fill((uint8_t *)al, 64, 77 + g.a); memcpy(am, al, 64);
    WHY[0] = 0;
    uint8_t *in = NULL, *in2 = NULL, *out = NULL, *work = NULL; size_t inn = 0, in2n = 0, outn = 0, workn = 0;
    if (call == PARSE) { inn = SYSN; in2n = GFXN; outn = 4 * g.out; }
    else if (call < POSITION) { inn = 4 * SN; outn = g.out; workn = 4 * g.work; }
    in = lend(&AIN, inn); memcpy(in, call == PARSE ? SYS : (uint8_t *)S, inn);
    if (call == PARSE) { in2 = lend(&AIN2, in2n); if (in2n) memcpy(in2, GFX, in2n); }
    out = lend(&AOUT, outn); fill(out, outn, 1234567 + g.b);
    room_for(&mine, &miner, outn); memcpy(mine, out, outn);
    work = lend(&AWORK, workn); if (workn) fill(work, workn, 99);
    uint8_t *pin = in, *pin2 = in2, *pout = out, *pwork = work, *pmine = mine;
    if (g.null) { if (!inn) pin = NULL; if (!in2n) pin2 = NULL; if (!outn) pout = NULL; if (!workn) pwork = NULL; }
    const uint32_t *ws = (const uint32_t *)(void *)pin;
    switch (call) {
    case PARSE:
        rm = g_parse(pin, inn, pin2, in2n, (uint32_t *)(void *)pmine, g.out, am);
        rl = ynv_parse(pin, inn, pin2, in2n, (uint32_t *)(void *)pout, g.out, al); break;
    case SERIALIZE:
        rm = g_serialize(ws, SN, (uint32_t *)(void *)pwork, g.work, pmine, g.out, am);
        rl = ynv_serialize(ws, SN, (uint32_t *)(void *)pwork, g.work, pout, g.out, al); break;
    case SEAMS: rm = g_count_seams(ws, SN, am); rl = ynv_count_seams(ws, SN, al); break;
    case PICK: rm = g_pick_poly(ws, SN, (uint16_t)g.a, (uint16_t)g.b, am); rl = pick(ws, SN, (uint16_t)g.a | 0xABCDEF0100000000ull, (uint16_t)g.b | 0x1234567800000000ull, al); break;
    case SPOT: rm = g_spot_for_position(ws, SN, g_float((uint32_t)g.a), g_float((uint32_t)g.b), am);
        rl = ynv_spot_for_position(ws, SN, g_float((uint32_t)g.a), g_float((uint32_t)g.b), al); break;
    case OBJ: rm = g_export_obj(ws, SN, pmine, g.out, am); rl = ynv_export_obj(ws, SN, pout, g.out, al); break;
    case REACH: rm = g_reachable(ws, SN, g.a, pmine, g.out, am); rl = ynv_reachable(ws, SN, g.a, pout, g.out, al); break;
    case POSITION: rm = g_cell_for_position(g_float((uint32_t)g.a), g_float((uint32_t)g.b), am);
        rl = ynv_cell_for_position(g_float((uint32_t)g.a), g_float((uint32_t)g.b), al); break;
    case BOUNDS: rm = g_cell_bounds((uint32_t)g.a, (uint32_t)g.b, am); rl = bounds((uint32_t)g.a | 0x7700000000000000ull, (uint32_t)g.b | 0x100000000ull, al); break;
    }
    LAST = rm;
    if (rm == 0 && (call == PARSE ? am[1] > 0 : call == SERIALIZE ? am[0] > 3088 : call == REACH ? am[0] > 1 : am[0] > 0)) TELLING++;
    if (rl != rm) { snprintf(WHY, sizeof WHY, "number: library %u (place %llu), mine %u (place %llu)", rl, (unsigned long long)al[0], rm, (unsigned long long)am[0]); return 1; }
    for (int i = 0; i < 8; i++)
        if (al[i] != am[i]) { snprintf(WHY, sizeof WHY, "number %u, answer[%d]: library %llu, mine %llu", rm, i, (unsigned long long)al[i], (unsigned long long)am[i]); return 1; }
    if (outn && memcmp(out, mine, outn)) {
        size_t i = 0; while (out[i] == mine[i]) i++;
        snprintf(WHY, sizeof WHY, "number %u, lent byte %zu (0x%zX) of %zu (result %llu): library %02X, mine %02X", rm, i, i, outn, (unsigned long long)am[0], out[i], mine[i]); return 1;
    }
    if (inn && memcmp(in, call == PARSE ? SYS : (uint8_t *)S, inn)) { snprintf(WHY, sizeof WHY, "input changed"); return 1; }
    if (in2n && memcmp(in2, GFX, in2n)) { snprintf(WHY, sizeof WHY, "second input changed"); return 1; }
    if (!front_ok(in) || (in2 && !front_ok(in2)) || !front_ok(out) || !front_ok(work)) { snprintf(WHY, sizeof WHY, "bytes before lent memory changed"); return 1; }
    if (workn > 8 * SN) {
        /* No. 4: "the work words from twice the strip's words on come back unchanged, refused or not" */
        room_for(&copy, &copyr, workn); fill(copy, workn, 99);
        if (memcmp(copy + 8 * SN, work + 8 * SN, workn - 8 * SN)) { snprintf(WHY, sizeof WHY, "work behind twice the strip's words changed"); return 1; }
    }
    return 0;
}

/* ---- arguments for a case ---- */
static size_t about(size_t exact, size_t more)
{
    switch (below(8)) {
    case 0: return exact ? exact - 1 : 0;
    case 1: return exact;
    case 2: return below((uint32_t)exact + 1);
    case 3: return chance(1, 4) ? 0 : exact + 1;
    default: return exact + below((uint32_t)more + 1);
    }
}
static uint8_t *probe; static size_t prober;

static void make_case(int call, uint64_t seed, uint64_t number, Args *g)
{
    reseed(seed * 16 + (uint64_t)call, number);
    memset(g, 0, sizeof *g);
    g->null = chance(1, 2);
    uint64_t am[8];
    if (call == PARSE) {
        SYSN = GFXN = 0;
        uint32_t k = below(100);
        if (number % 3001 == 17) gen_wrap();
        else if (number % 20 == 3) gen_many();
        else if (k < 45) gen_pages();
        else {
            for (int t = 0; t < 20; t++) { static const uint32_t big[] = { 13, 14, 17, 18, 19, 20, 21, 22, 23 };
                if (number % 499 == 5) gen_limit(big[below(9)]); else gen_strip(0); if (pages_of_strip()) break; }
            if (SYSN < 688) gen_pages();
            else {
                if (number % 4 == 0) {
                    /* ynv.h: "with ynv_strip_words() words 2 never comes for pages that ynv_serialize wrote" */
                    size_t words = ynv_strip_words(SYSN, 0); room_for(&probe, &prober, 4 * words);
                    uint32_t r = ynv_parse(SYS, SYSN, NULL, 0, (uint32_t *)(void *)probe, words, am);
                    if (r) { printf("CLAIM ynv_strip_words: refused %u, case %llu\n", r, (unsigned long long)number); DIFFS++; }
                }
                damage_pages();
            }
        }
        if (chance(1, 400)) SYSN = below(370);
        if (chance(1, 400)) SYSN = 0;
        /* how long the strip will be */
        size_t room = 900000; room_for(&probe, &prober, 4 * room);
        uint32_t r = g_parse(SYS, SYSN, GFX, GFXN, (uint32_t *)(void *)probe, room, am);
        g->out = r ? below(300) : about(am[0], 60);
        g->a = rnd(); g->b = rnd();
        return;
    }
    if (call == POSITION) {
        for (int i = 0; i < 2; i++) {
            uint32_t v;
            switch (below(6)) {
            case 0: v = odd_float(); break;
            case 1: v = (uint32_t)rnd(); break;
            case 2: v = nudge((float)(-6000 + 150 * (int)below(102) - 150)); break;
            case 3: v = g_bits((float)(unit() * 20000 - 8000)); break;
            case 4: v = nudge((float)((int)below(30) - 15) * (float)pow(2, (int)below(40) - 30)); break;
            default: v = nudge((float)(unit() * 16000 - 7000)); break;
            }
            if (i) g->b = v; else g->a = v;
        }
        return;
    }
    if (call == BOUNDS) { g->a = chance(9, 10) ? below(103) : (uint32_t)rnd(); g->b = chance(9, 10) ? below(103) : chance(1, 2) ? (uint32_t)rnd() : 99 + below(3); return; }
    /* calls on strips */
    int damage = chance(1, 5);
    if (call == SERIALIZE) {
        uint32_t k = (uint32_t)(number % 500);
        static const uint32_t small[] = { 12, 15, 16, 18, 19, 99 };
        if (k % 4 == 1) { gen_limit(small[below(6)]); if (chance(1, 2)) damage = 0; }
        else if (k == 100) gen_limit(21);
        else if (k % 50 == 12) gen_limit(24), damage = chance(1, 8);
        else if (k % 250 == 102) gen_limit(20), damage = chance(1, 8);
        else if (k == 104) gen_limit(11), damage = chance(1, 8);
        else if (k == 160) gen_limit(17), damage = chance(1, 8);
        else if (k == 200) gen_limit(13), damage = chance(1, 8);
        else if (k == 300) gen_limit(14), damage = chance(1, 8);
        else if (k % 100 == 50) gen_limit(25), damage = 0;
        else if (number % 5000 == 1900) gen_limit(22), damage = 0;
        else if (number % 2000 == 1950) gen_limit(23), damage = 0;
        else if (k % 20 == 6) gen_limit(15), damage = chance(1, 8);
        else gen_strip(chance(1, 8));
    } else if (call == REACH) {
        if (number % 3 == 0) gen_strip(1);
        else if (number % 1000 == 400) gen_graph(2);
        else gen_graph(number % 50 == 10);
    } else if (call == OBJ) {
        if (number % 1000 == 7) gen_limit(21);
        else if (number % 5000 == 8) gen_limit(14);
        else if (number % 1000 == 9) gen_limit(20);
        else gen_strip(chance(1, 6));
    } else if (call == SPOT && number % 2) {
        Par p; par_common(&p); gen_strip_of(&p); if (WILD == 0) WILD = 1;
        if (chance(4, 5)) damage = 0;
    } else { if (number % 500 == 7) gen_limit(21); else gen_strip(1); }
    if (damage) damage_strip();
    size_t exact;
    switch (call) {
    case SERIALIZE: {
        static const int mode[] = { 0, 0, 0, 0, 1, 2, 3, 4 };
        switch (mode[below(8)]) {
        case 0: g->work = 4 * SN; break;
        case 1: g->work = 4 * SN + below(40); break;
        case 2: g->work = chance(1, 2) && SN > 50000 ? 4 * SN : SN ? 4 * SN - 1 : 0; break;
        case 3: g->work = chance(1, 2) ? 2 * SN + below(10) : below((uint32_t)(4 * SN) + 1); break;
        case 4: g->work = chance(1, 4) ? 0 : 4 * SN + 3; break;
        }
        size_t room = ynv_pages_bytes(SN); room_for(&probe, &prober, room);
        uint32_t r = g_serialize(S, SN, NULL, 4 * SN, probe, room, am);
        if (r == 1 || r == 2) { printf("CLAIM ynv_pages_bytes: refused %u, case %llu\n", r, (unsigned long long)number); DIFFS++; }
        exact = r ? below(2000) : am[0];
        g->out = about(exact, 500);
        break; }
    case OBJ: {
        size_t room = ynv_obj_bytes(SN); room_for(&probe, &prober, room);
        uint32_t r = g_export_obj(S, SN, probe, room, am);
        if (r == 2) { printf("CLAIM ynv_obj_bytes, case %llu\n", (unsigned long long)number); DIFFS++; }
        exact = r ? below(500) : am[0];
        g->out = about(exact, 300);
        break; }
    case REACH: {
        Cell c; uint64_t place; size_t np = 3;
        if (!g_scan(S, SN, &c, &place)) { np = c.np; g_free(&c); if (np > SN / 4) { printf("CLAIM strip_len / 4, case %llu\n", (unsigned long long)number); DIFFS++; } }
        g->out = chance(1, 6) ? about(np, 40) : np + below(20);
        g->a = chance(1, 12) ? (chance(1, 2) ? np + below(3) : chance(1, 2) ? rnd() : below((uint32_t)np) | 1ull << (32 + below(32))) : below((uint32_t)np);
        break; }
    case PICK: {
        Cell c; uint64_t place;
        g->a = below(65536); g->b = below(65536);
        if (chance(1, 8)) g->a = chance(1, 2) ? 0 : 65535;
        if (chance(1, 8)) g->b = chance(1, 2) ? 0 : 65535;
        if (!g_scan(S, SN, &c, &place)) {
            if (c.np && chance(3, 4)) {
                /* about the vertices of a polygon: one of them and its neighbours, or the middle of two or three */
                const Poly *p = &c.poly[below((uint32_t)c.np)];
                if (p->nv) for (int a = 0; a < 2; a++) {
                    uint32_t n = 1 + below(3), sum = 0;
                    for (uint32_t k = 0; k < n; k++) sum += g_short(g_float(p->verts[3 * below(p->nv) + (uint32_t)a]), g_float(c.min[a]), g_float(c.size[a])).q;
                    int q = (int)(sum / n) + (chance(1, 2) ? 0 : (int)below(3) - 1);
                    if (q < 0) q = 0;
                    if (q > 65535) q = 65535;
                    if (a) g->b = (uint64_t)q; else g->a = (uint64_t)q;
                }
            }
            g_free(&c);
        }
        break; }
    case SPOT: g->a = coord(0); g->b = coord(1); break;
    }
}

static void dump(int call, Args g)
{
    printf("    args: out %zu work %zu a %llu (0x%llX) b %llu (0x%llX) null %d\n", g.out, g.work, (unsigned long long)g.a, (unsigned long long)g.a, (unsigned long long)g.b, (unsigned long long)g.b, g.null);
    if (call == PARSE) {
        printf("    system %zu bytes, graphics %zu bytes\n", SYSN, GFXN);
        for (size_t i = 0; i < SYSN && i < 4096; i++) printf("%s%02X", i % 64 ? "" : "\n    ", SYS[i]);
        printf("\n");
    } else if (call < POSITION) {
        printf("    strip of %zu words:", SN);
        for (size_t i = 0; i < SN && i < 400; i++) printf("%s%08X", i % 16 ? " " : "\n      ", S[i]);
        printf("\n");
    }
}

/* Leave out ever smaller stretches of the strip while the difference stays; then zero words. */
static void shrink(int call, Args *g)
{
    if (call == PARSE) {
        for (size_t i = 0; i < SYSN; i++) if (SYS[i]) { uint8_t o = SYS[i]; SYS[i] = 0; if (!one(call, *g)) SYS[i] = o; }
        return;
    }
    if (call >= POSITION || SN > 20000) return;
    uint32_t *save = malloc(4 * SN + 4);
    for (size_t len = SN; len >= 1; len = len > 64 ? len / 2 : len - 1)
        for (size_t at = 0; at + len <= SN; ) {
            memcpy(save, S, 4 * SN); size_t n = SN; Args t = *g;
            memmove(S + at, S + at + len, 4 * (SN - at - len)); SN -= len;
            if (g->work >= 4 * n) g->work = 4 * SN;
            if (one(call, *g)) continue;
            memcpy(S, save, 4 * n); SN = n; *g = t;
            at += len > 32 ? len / 2 : 1;
        }
    for (size_t i = 0; i < SN; i++) if (S[i]) { uint32_t o = S[i]; S[i] = 0; if (!one(call, *g)) S[i] = o; }
    free(save);
}

int main(int argc, char **argv)
{
    if (argc < 5) { fprintf(stderr, "fuzz CALL SEED FROM COUNT\n"); return 2; }
    int call = 0;
    while (call < CALLS && strcmp(argv[1], NAMES[call])) call++;
    if (call == CALLS) return 2;
    uint64_t seed = strtoull(argv[2], 0, 0), from = strtoull(argv[3], 0, 0), count = strtoull(argv[4], 0, 0);
    AIN = new_arena(64u << 20); AIN2 = new_arena(16u << 20); AOUT = new_arena(64u << 20); AWORK = new_arena(128u << 20);
    double slow = 0; uint64_t slowest = 0;
    for (uint64_t i = from; i < from + count; i++) {
        Args g;
        struct timespec t0, t1;
        make_case(call, seed, i, &g);
        clock_gettime(CLOCK_PROCESS_CPUTIME_ID, &t0);
        int d = one(call, g);
        clock_gettime(CLOCK_PROCESS_CPUTIME_ID, &t1);
        double s = (double)(t1.tv_sec - t0.tv_sec) + (double)(t1.tv_nsec - t0.tv_nsec) * 1e-9;
        if (s > slow) { slow = s; slowest = i; }
        HIST[LAST < 64 ? LAST : 63]++;
        if (d) {
            DIFFS++;
            printf("DIFFERENCE %s seed %llu case %llu: %s\n", argv[1], (unsigned long long)seed, (unsigned long long)i, WHY);
            if (DIFFS <= 5 && argc < 6) { shrink(call, &g); one(call, g); printf("  shrunk: %s\n", WHY); dump(call, g); }
            fflush(stdout);
        }
    }
    printf("%s seed %llu cases %llu..%llu: %llu calls, %llu differences; numbers:", argv[1], (unsigned long long)seed, (unsigned long long)from,
           (unsigned long long)(from + count - 1), (unsigned long long)count, (unsigned long long)DIFFS);
    for (int i = 0; i < 64; i++) if (HIST[i]) printf(" %d:%llu", i, (unsigned long long)HIST[i]);
    printf("; telling %llu", (unsigned long long)TELLING);
    printf("; slowest case %llu, both %.3f s\n", (unsigned long long)slowest, slow);
    return DIFFS != 0;
}
