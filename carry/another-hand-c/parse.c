/* Document 01, sections "Pages" and "Cell grammar"; ynv.rs, parse_ynv. */
#include "g.h"

typedef struct { const uint8_t *s; size_t sn; const uint8_t *g; size_t gn; } Sections;

static uint16_t u16(const uint8_t *b, size_t o) { return (uint16_t)(b[o] | b[o + 1] << 8); }
static uint32_t u32(const uint8_t *b, size_t o) { return u16(b, o) | (uint32_t)u16(b, o + 2) << 16; }
static uint64_t u64(const uint8_t *b, size_t o) { return u32(b, o) | (uint64_t)u32(b, o + 4) << 32; }

/* "Addresses are 64-bit: bits 29 and 30 both set mean graphics (less 0x60000000), otherwise bits 28 and 30 system (less
 * 0x50000000). A part is good when it is non-null and inside its section". Gives 1 and the part when it is good. */
static int good(const Sections *r, uint64_t va, uint64_t len, const uint8_t **part)
{
    const uint8_t *base; uint64_t off, n;
    if (va == 0) return 0;
    if ((va & 0x60000000) == 0x60000000) { base = r->g; n = r->gn; off = va - 0x60000000; }
    else if ((va & 0x50000000) == 0x50000000) { base = r->s; n = r->sn; off = va - 0x50000000; }
    else return 0;
    if (off > n || len > n - off) return 0;
    *part = base ? base + off : base;
    return 1;
}

typedef struct { uint64_t items; uint8_t *bytes; } List;

/* "four lists (address 0 is empty), headers, part tables unless their count is 0, and items good, parts with count 0
 * skipped, counts adding up"; "list by list 35, 36" */
static uint32_t list(const Sections *r, uint64_t va, uint32_t size, List *l)
{
    const uint8_t *h, *parts, *items;
    l->items = 0; l->bytes = NULL;
    if (va == 0) return 0;
    /* "List, 48 bytes: vft, 1, item count at 8, address of parts at 0x10, ..., part count at 0x20" */
    if (!good(r, va, 48, &h)) return 35;
    uint64_t item_count = u32(h, 8), sum = 0, part_count = u32(h, 0x20);
    if (part_count) {
        if (!good(r, u64(h, 0x10), 16 * part_count, &parts)) return 35;
        /* "Part, 16 bytes: address, item count at 8." */
        for (uint64_t i = 0; i < part_count; i++) {
            uint64_t count = u32(parts, 16 * i + 8);
            if (count == 0) continue;
            if (!good(r, u64(parts, 16 * i), count * size, &items)) return 35;
            sum += count;
        }
    }
    if (sum != item_count) return 36;
    l->items = sum;
    l->bytes = malloc(sum * size + 1);
    if (!l->bytes) abort();
    uint64_t at = 0;
    if (part_count)
        for (uint64_t i = 0; i < part_count; i++) {
            uint64_t count = u32(parts, 16 * i + 8);
            if (count == 0) continue;
            good(r, u64(parts, 16 * i), count * size, &items);
            memcpy(l->bytes + at, items, count * size);
            at += count * size;
        }
    return 0;
}

/* A growing row of words: the derived strip. */
typedef struct { uint32_t *w; size_t n, room; } Words;
static void put(Words *s, uint32_t w)
{
    if (s->n == s->room) {
        s->room = s->room ? 2 * s->room : 1024;
        s->w = realloc(s->w, s->room * 4);
        if (!s->w) abort();
    }
    s->w[s->n++] = w;
}

/* "Back: lo + q / 65535 x extent." */
static void put_back(Words *s, const uint32_t min[3], const uint32_t size[3], const uint8_t *shorts)
{
    for (int a = 0; a < 3; a++) {
        float q = (float)u16(shorts, 2 * (size_t)a);
        float t = q / 65535.0f;
        float d = t * g_float(size[a]);
        float x = g_float(min[a]) + d;
        put(s, g_bits(x));
    }
}

uint32_t g_parse(const uint8_t *system, size_t system_len, const uint8_t *graphics, size_t graphics_len, uint32_t *strip,
                 size_t strip_len, uint64_t answer[8])
{
    Sections r = { system, system_len, graphics, graphics_len };
    const uint8_t *h, *root;
    uint32_t refusal = 0; uint64_t place = 0;
    List ls[4] = { { 0, 0 } };
    Words s = { 0, 0, 0 }, pts = { 0, 0, 0 };
    uint64_t *stack = NULL;
    /* "Reading: 30, 31, 32 for the root, 40; each sector 33, 32, 34; list by list 35, 36; per polygon 37, 38; 39; 2." */
    /* "a good header": "Header, 368 bytes at system 0" */
    if (!good(&r, 0x50000000, 368, &h)) { refusal = 30; goto out; }
    uint32_t vft = u32(h, 0), content = u32(h, 0x10), area = u32(h, 0x140), version = u32(h, 0x160);
    uint32_t size[3], min[3], max[3];
    for (int a = 0; a < 3; a++) size[a] = u32(h, 0x60 + 4 * (size_t)a);
    uint64_t root_va = u64(h, 0x120);
    if (root_va == 0) { refusal = 31; goto out; }
    if (!good(&r, root_va, 96, &root)) { refusal = 32; goto out; }
    for (int a = 0; a < 3; a++) { min[a] = u32(root, 4 * (size_t)a); max[a] = u32(root, 16 + 4 * (size_t)a); }
    /* "a good root with finite min, max and bb_size" */
    for (int a = 0; a < 3; a++)
        if (!g_finite(min[a]) || !g_finite(max[a]) || !g_finite(size[a])) { refusal = 40; goto out; }
    /* "A tree is a good sector, data good if its address isn't 0, points if their count isn't 0, and a tree at each
     * non-zero sub; a sector reached twice counts twice. Preorder goes over subs 3, 2, 1, 0; points come in it." */
    stack = malloc(20000 * sizeof *stack);
    if (!stack) abort();
    size_t depth = 0; uint64_t visited = 0, points = 0;
    stack[depth++] = root_va;
    while (depth) {
        const uint8_t *sec, *d, *p;
        uint64_t va = stack[--depth];
        if (visited == 4096) { refusal = 33; goto out; } /* "33 a 4,097th sector" */
        visited++;
        if (!good(&r, va, 96, &sec)) { refusal = 32; goto out; }
        uint64_t data = u64(sec, 0x2C);
        if (data != 0) {
            /* "Data, 32 bytes: first point number, ids 8, points 0x10, id count 0x18, point count 0x1A." */
            if (!good(&r, data, 32, &d)) { refusal = 34; goto out; }
            uint64_t count = u16(d, 0x1A);
            if (count != 0) {
                if (!good(&r, u64(d, 0x10), 8 * count, &p)) { refusal = 34; goto out; }
                /* "Point, 8 bytes: shorts, angle, kind." */
                for (uint64_t i = 0; i < count; i++) {
                    const uint8_t *b = p + 8 * i;
                    put(&pts, 0x40000000u | b[6] | (uint32_t)b[7] << 8); /* "4, point: bits 0-7 angle, 8-15 kind" */
                    put_back(&pts, min, size, b);
                    points++;
                }
            }
        }
        for (size_t i = 0; i < 4; i++) {
            uint64_t sub = u64(sec, 0x34 + 8 * i); /* "four subs from 0x34" */
            if (sub != 0) stack[depth++] = sub;
        }
    }
    /* "35 list header, part table or part not good, 36 list counts (place 1-4: vertices, indices, edges, polygons)" */
    static const uint32_t sizes[4] = { 6, 2, 8, 48 };
    static const size_t at[4] = { 0x70, 0x80, 0x88, 0x118 };
    for (int i = 0; i < 4; i++) {
        refusal = list(&r, u64(h, at[i]), sizes[i], &ls[i]);
        if (refusal) { place = (uint64_t)i + 1; goto out; }
    }
    /* "A link table that isn't good is empty; a link run outside it gives no links." */
    uint64_t link_count = u32(h, 0x150);
    const uint8_t *links = NULL;
    if (!good(&r, u64(h, 0x130), 2 * link_count, &links)) link_count = 0;
    /* The cell. "1, cell: 13 words follow: content flags, area id, version, vft, then bb_min, bb_max, bb_size" */
    put(&s, 0x10000000); put(&s, content); put(&s, area); put(&s, version); put(&s, vft);
    for (int a = 0; a < 3; a++) put(&s, min[a]);
    for (int a = 0; a < 3; a++) put(&s, max[a]);
    for (int a = 0; a < 3; a++) put(&s, size[a]);
    uint32_t areas = u32(h, 0x94);
    for (uint64_t i = 0; i < ls[3].items; i++) {
        const uint8_t *p = ls[3].bytes + 48 * i;
        /* "Polygon: flags0; vertex count at 2 in bits 5-15; start at 4; ...; flags1 0x24; flags2 0x28; at 0x2C ... links x
         * 4096 (bits 12-14) + links before it x 32768 (bits 15-31)" */
        uint64_t count = u16(p, 2) >> 5, start = u16(p, 4);
        uint64_t nl = u32(p, 0x2C) >> 12 & 7, first = u32(p, 0x2C) >> 15;
        /* "polygon runs inside indices and edges": 37 */
        if (start + count > ls[1].items || start + count > ls[2].items) { refusal = 37; place = i; goto out; }
        if (first + nl > link_count) nl = 0;
        /* "2, polygon: bits 0-11 vertices, 12-23 edges, 24-27 links." "Reading makes as many edges as vertices." */
        put(&s, 0x20000000u | (uint32_t)count | (uint32_t)count << 12 | (uint32_t)nl << 24);
        put(&s, u16(p, 0)); put(&s, u32(p, 0x24)); put(&s, u32(p, 0x28));
        for (uint64_t k = 0; k < nl; k++) put(&s, u16(links, 2 * (first + k)));
        for (uint64_t k = 0; k < count; k++) {
            uint64_t index = u16(ls[1].bytes, 2 * (start + k));
            if (index >= ls[0].items) { refusal = 38; place = i; goto out; } /* "indices below the vertex count": 38 */
            put_back(&s, min, size, ls[0].bytes + 6 * index);
        }
        for (uint64_t k = 0; k < count; k++)
            for (uint64_t half = 0; half < 2; half++) {
                /* "Edge half: area index in bits 0-4, poly 5-18, unk2 19-20, unk3 21-31. A read index not below the area
                 * count gives 16383." */
                uint32_t raw = u32(ls[2].bytes, 8 * (start + k) + 4 * half), index = raw & 31;
                put(&s, index < areas ? u32(h, 0x98 + 4 * (size_t)index) : 16383);
                put(&s, raw >> 5 & 16383);
                put(&s, (raw >> 21 & 2047) | (raw >> 19 & 3) << 16);
            }
    }
    /* "portals good if any": 39 */
    uint64_t portals = u32(h, 0x14C);
    if (portals) {
        const uint8_t *b;
        if (!good(&r, u64(h, 0x128), 28 * portals, &b)) { refusal = 39; goto out; }
        for (uint64_t i = 0; i < portals; i++, b += 28) {
            /* "Portal, 28 bytes: kind, angle, flags_unk, six shorts, poly_from twice, poly_to twice (the first of each is
             * read), area_from (14 bits), area_to (14), area_unk (4)." */
            uint32_t flags = u32(b, 24);
            put(&s, 0x30000000u | b[0] | (uint32_t)b[1] << 8);
            put(&s, u16(b, 2));
            put_back(&s, min, size, b + 4);
            put_back(&s, min, size, b + 10);
            put(&s, u16(b, 16) + 65536u * u16(b, 20));
            put(&s, (flags & 16383) + 65536u * (flags >> 14 & 16383));
            put(&s, flags >> 28);
        }
    }
    for (size_t i = 0; i < pts.n; i++) put(&s, pts.w[i]);
    put(&s, 0x50000000);
    /* "A lent strip is long enough when it has at least as many words as the derived one." */
    if (strip_len < s.n) { refusal = 2; goto out; }
    memcpy(strip, s.w, 4 * s.n);
    g_accept(answer, s.n, ls[3].items, portals, points, visited);
out:
    free(s.w); free(pts.w); free(stack);
    for (int i = 0; i < 4; i++) free(ls[i].bytes);
    if (refusal) return g_refuse(answer, refusal, place);
    return 0;
}
