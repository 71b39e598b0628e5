/* Document 01, sections "Pages", "Modules in order" 3, 4, 7, 8 and the sectors; requests No. 2, 4, 6; ynv.rs, serialize_ynv. */
#include "g.h"

/* ---- Pages under construction ---- */
typedef struct { uint8_t *b; size_t end, room; } Pages;
uint64_t g_asked, g_skipped; /* for request No. 14 (later/): bytes asked for, gaps before the blocks, of the last call */

/* "a block starts at the first multiple of 16 not below the end so far, or at the next page if it wouldn't fit" (pages of
 * 16384); "the bytes skipped between blocks are zero" */
static size_t block(Pages *w, size_t size)
{
    size_t at = (w->end + 15) / 16 * 16;
    if (at % 16384 + size > 16384)
        at = (at / 16384 + 1) * 16384;
    if (at + size > w->room) {
        size_t room = 2 * (at + size) + 65536;
        w->b = realloc(w->b, room);
        if (!w->b) abort();
        memset(w->b + w->room, 0, room - w->room);
        w->room = room;
    }
    g_asked += size; g_skipped += at - w->end;
    w->end = at + size;
    return at;
}
static void p16(Pages *w, size_t at, uint32_t v) { w->b[at] = (uint8_t)v; w->b[at + 1] = (uint8_t)(v >> 8); }
static void p32(Pages *w, size_t at, uint32_t v) { p16(w, at, v & 65535); p16(w, at + 2, v >> 16); }
static void p64(Pages *w, size_t at, uint64_t v) { p32(w, at, (uint32_t)v); p32(w, at + 4, (uint32_t)(v >> 32)); }
static uint64_t address(size_t at) { return 0x50000000 + (uint64_t)at; }

/* "List, 48 bytes: vft, 1, item count at 8, address of parts at 0x10 (laid out even when there are none), of offsets at 0x18
 * (each part's first item number, 32 bits; 0 if no part), part count at 0x20. Part, 16 bytes: address, item count at 8. ...
 * A part takes floor(16384 / item size) items." */
static size_t list(Pages *w, uint32_t vft, const uint8_t *items, size_t count, size_t size)
{
    size_t per = 16384 / size, parts = (count + per - 1) / per;
    size_t header = block(w, 48);
    size_t table = block(w, 16 * parts);
    for (size_t i = 0; i < parts; i++) {
        size_t n = i + 1 < parts ? per : count - i * per;
        size_t at = block(w, n * size);
        memcpy(w->b + at, items + i * per * size, n * size);
        p64(w, table + 16 * i, address(at));
        p32(w, table + 16 * i + 8, (uint32_t)n);
    }
    size_t offsets = 0;
    if (parts) {
        offsets = block(w, 4 * parts);
        for (size_t i = 0; i < parts; i++) p32(w, offsets + 4 * i, (uint32_t)(i * per));
    }
    p32(w, header, vft);
    p32(w, header + 4, 1);
    p32(w, header + 8, (uint32_t)count);
    p64(w, header + 0x10, address(table));
    p64(w, header + 0x18, parts ? address(offsets) : 0);
    p32(w, header + 0x20, (uint32_t)parts);
    return header;
}

/* ---- Quarter boxes ---- */
/* "floor of 4 x min, ceiling of 4 x max, saturated to 16 signed bits, NaN 0" */
static int saturate(float f)
{
    if (f != f) return 0;
    if (f >= 32767.0f) return 32767;
    if (f <= -32768.0f) return -32768;
    return (int)f;
}
static int quarter_min(float x) { float p = x * 4.0f; return saturate(floorf(p)); }
static int quarter_max(float x) { float p = x * 4.0f; return saturate(ceilf(p)); }

typedef struct { int16_t q[6]; } Box; /* "for x, y, z in turn" */

/* ---- Everything that is carried along ---- */
typedef struct {
    const Cell *c;
    Pages w;
    Box *boxes;
    uint8_t *used;      /* points already stored */
    uint64_t stored;
    uint64_t total;
    uint64_t leaf;      /* number of the next leaf, from 0 */
    uint32_t refusal; uint64_t place;
    uint64_t outside;
} Writer;

static void shorts(Writer *w, const uint32_t v[3], uint16_t q[3])
{
    for (int a = 0; a < 3; a++) {
        Short s = g_short(g_float(v[a]), g_float(w->c->min[a]), g_float(w->c->size[a]));
        q[a] = s.q;
        /* No. 6: "Counted coordinate by coordinate, the sum over all vertices, both portal ends and all points of the strip,
         * dropped ones too, stands in the writer's answer." Each of these goes through here once. */
        if (s.outside) w->outside++;
    }
}

static size_t sector(Writer *w, const float min[3], const float max[3], int depth)
{
    const Cell *c = w->c;
    if (w->refusal) return 0;
    size_t node = block(&w->w, 96);
    w->total += 96; /* "96 per sector" */
    Box own;
    for (int a = 0; a < 3; a++) {
        own.q[2 * a] = (int16_t)quarter_min(min[a]);
        own.q[2 * a + 1] = (int16_t)quarter_max(max[a]);
    }
    /* "Sector, 96 bytes: min, NaN, max, NaN (the Rust's bits), quarter box at 32, data address 0x2C, four subs from 0x34." */
    for (int a = 0; a < 3; a++) {
        p32(&w->w, node + 4 * (size_t)a, g_bits(min[a]));
        p32(&w->w, node + 16 + 4 * (size_t)a, g_bits(max[a]));
    }
    p32(&w->w, node + 12, 0x7FC00000);
    p32(&w->w, node + 28, 0x7FC00000);
    for (size_t i = 0; i < 6; i++) p16(&w->w, node + 32 + 2 * i, (uint16_t)own.q[i]);
    if (depth == 0) {
        uint64_t leaf = w->leaf++;
        /* "A leaf stores ids of polygons whose quarter boxes have, in x and y, max not below its own min and min not above its
         * own max, and unstored points inside it there, borders included." "a leaf's ids and points stand in the strip's
         * order" */
        uint32_t *ids = malloc((c->np + 1) * 4);
        size_t *pts = malloc((c->nt + 1) * sizeof *pts);
        if (!ids || !pts) abort();
        size_t ni = 0, nt = 0;
        for (size_t i = 0; i < c->np; i++) {
            const int16_t *b = w->boxes[i].q;
            if (b[1] >= own.q[0] && b[0] <= own.q[1] && b[3] >= own.q[2] && b[2] <= own.q[3])
                ids[ni++] = (uint32_t)i;
        }
        for (size_t i = 0; i < c->nt; i++) {
            if (w->used[i]) continue;
            float x = g_float(c->point[i].pos[0]), y = g_float(c->point[i].pos[1]);
            if (x >= min[0] && x <= max[0] && y >= min[1] && y <= max[1]) {
                w->used[i] = 1;
                pts[nt++] = i;
            }
        }
        /* "by leaf (from 0, as written) 17 over 8,192 ids, 18 over 2,048 points" */
        if (ni > 8192) { w->refusal = 17; w->place = leaf; free(ids); free(pts); return 0; }
        if (nt > 2048) { w->refusal = 18; w->place = leaf; free(ids); free(pts); return 0; }
        /* "a leaf's [block comes] before its ids, points, data"; "Empty ids, points, portals or links get no block and
         * address 0." */
        size_t ids_at = 0, pts_at = 0;
        if (ni) {
            ids_at = block(&w->w, 2 * ni);
            for (size_t i = 0; i < ni; i++) p16(&w->w, ids_at + 2 * i, ids[i]);
        }
        if (nt) {
            pts_at = block(&w->w, 8 * nt);
            for (size_t i = 0; i < nt; i++) {
                /* "Point, 8 bytes: shorts, angle, kind." Flags are counted elsewhere. */
                const Point *p = &c->point[pts[i]];
                for (int a = 0; a < 3; a++)
                    p16(&w->w, pts_at + 8 * i + 2 * (size_t)a,
                        g_short(g_float(p->pos[a]), g_float(c->min[a]), g_float(c->size[a])).q);
                w->w.b[pts_at + 8 * i + 6] = (uint8_t)p->angle;
                w->w.b[pts_at + 8 * i + 7] = (uint8_t)p->kind;
            }
        }
        /* "Data, 32 bytes: first point number, ids 8, points 0x10, id count 0x18, point count 0x1A." */
        size_t data = block(&w->w, 32);
        p32(&w->w, data, (uint32_t)w->stored);
        p64(&w->w, data + 8, ni ? address(ids_at) : 0);
        p64(&w->w, data + 0x10, nt ? address(pts_at) : 0);
        p16(&w->w, data + 0x18, (uint32_t)ni);
        p16(&w->w, data + 0x1A, (uint32_t)nt);
        w->stored += nt;
        /* "32 per leaf, 2 per polygon id in a leaf, 8 per point stored" */
        w->total += 32 + 2 * (uint64_t)ni + 8 * (uint64_t)nt;
        p64(&w->w, node + 0x2C, address(data));
        free(ids); free(pts);
        return node;
    }
    /* "each splits itself at (min + max) x 0.5 and its parts likewise. Subs: (cx, cy, cz) to max; (cx, min y, 0) to (max x, cy,
     * 0); min to (cx, cy, cz); (min x, cy, 0) to (cx, max y, 0). A sector's block comes before its subs' in that order" */
    float cen[3];
    for (int a = 0; a < 3; a++) { float sum = min[a] + max[a]; cen[a] = sum * 0.5f; }
    float lo[4][3] = { { cen[0], cen[1], cen[2] }, { cen[0], min[1], 0.0f }, { min[0], min[1], min[2] }, { min[0], cen[1], 0.0f } };
    float hi[4][3] = { { max[0], max[1], max[2] }, { max[0], cen[1], 0.0f }, { cen[0], cen[1], cen[2] }, { cen[0], max[1], 0.0f } };
    for (size_t i = 0; i < 4; i++) {
        size_t sub = sector(w, lo[i], hi[i], depth - 1);
        if (w->refusal) return 0;
        p64(&w->w, node + 0x34 + 8 * i, address(sub));
    }
    return node;
}

uint32_t g_serialize(const uint32_t *strip, size_t n, uint32_t *work, size_t work_len, uint8_t *pages, size_t pages_len,
                     uint64_t answer[8])
{
    Cell c; uint64_t place;
    (void)work;
    /* "Writing: 3, 1, 10, 11; per polygon 12, 13, then per vertex 14, then 15 for half a and b, then 16; leaves in order 17, 18;
     * 19, 20, 2." */
    if (g_scan(strip, n, &c, &place)) return g_refuse(answer, 3, place);
    uint32_t refusal = 0; place = 0;
    Writer w; memset(&w, 0, sizeof w);
    w.c = &c;
    uint8_t *vertices = NULL, *indices = NULL, *edges = NULL, *polys = NULL, *links = NULL;
    uint32_t *head = NULL, *next = NULL;
    /* "1 work words / 4, rounded down, below the strip's words" */
    if (work_len / 4 < n) { refusal = 1; goto out; }
    if (!g_box_finite(&c)) { refusal = 10; goto out; }
    if (c.np > 16383) { refusal = 11; goto out; } /* "11 over 16,383 polygons" */

    /* "4. Areas (20): own id a, 16383, a - 100, a - 1, a + 1, a + 100, all wrapping, equal ones once, then as edges name them." */
    uint32_t areas[32], na = 0;
    uint32_t seeds[6] = { c.area, 16383, c.area - 100, c.area - 1, c.area + 1, c.area + 100 };
    for (int i = 0; i < 6; i++) {
        uint32_t k = 0;
        while (k < na && areas[k] != seeds[i]) k++;
        if (k == na) areas[na++] = seeds[i];
    }
    size_t most = 0, most_links = 0;
    for (size_t i = 0; i < c.np; i++) { most += c.poly[i].nv; most_links += c.poly[i].nl; }
    vertices = malloc(6 * most + 1); indices = malloc(2 * most + 1); edges = malloc(8 * most + 1);
    polys = calloc(c.np + 1, 48); links = malloc(2 * most_links + 1);
    w.boxes = malloc((c.np + 1) * sizeof *w.boxes);
    w.used = calloc(c.nt + 1, 1);
    size_t buckets = 2 * most + 1;
    head = malloc(4 * buckets); next = malloc(4 * (most + 1));
    if (!vertices || !indices || !edges || !polys || !links || !w.boxes || !w.used || !head || !next) abort();
    memset(head, 255, 4 * buckets);
    size_t nv = 0, ni = 0, nl = 0;
    for (size_t i = 0; i < c.np; i++) {
        const Poly *p = &c.poly[i];
        place = i;
        if (p->nv < 3 || p->nv > 2047) { refusal = 12; goto out; } /* "12 under 3 or over 2047 vertices" */
        size_t start = ni;
        if (start > 65535) { refusal = 13; goto out; } /* "13 start above 65535" */
        /* "A polygon's min starts from the greatest finite f32, its max from the least"; "`Vec3::min` and `Vec3::max` go by
         * coordinate: a NaN loses to a number, otherwise the lesser or greater" */
        float lo[3] = { FLT_MAX, FLT_MAX, FLT_MAX }, hi[3] = { -FLT_MAX, -FLT_MAX, -FLT_MAX };
        for (uint32_t k = 0; k < p->nv; k++) {
            uint16_t q[3];
            shorts(&w, p->verts + 3 * k, q);
            for (int a = 0; a < 3; a++) {
                float x = g_float(p->verts[3 * k + (uint32_t)a]);
                if (x < lo[a]) lo[a] = x;
                if (x > hi[a]) hi[a] = x;
            }
            /* "Equal short triples share a vertex, numbered as first met" */
            uint8_t t[6] = { (uint8_t)q[0], (uint8_t)(q[0] >> 8), (uint8_t)q[1], (uint8_t)(q[1] >> 8), (uint8_t)q[2], (uint8_t)(q[2] >> 8) };
            size_t bucket = (q[0] + (size_t)q[1] * 257 + (size_t)q[2] * 65539) % buckets;
            uint32_t v = head[bucket];
            while (v != 0xFFFFFFFF && memcmp(vertices + 6 * (size_t)v, t, 6) != 0) v = next[v];
            if (v == 0xFFFFFFFF) {
                if (nv == 65536) { refusal = 14; goto out; } /* "14 a 65,537th vertex" */
                memcpy(vertices + 6 * nv, t, 6);
                v = (uint32_t)nv++;
                next[v] = head[bucket]; head[bucket] = v;
            }
            indices[2 * ni] = (uint8_t)v; indices[2 * ni + 1] = (uint8_t)(v >> 8);
            for (uint32_t half = 0; half < 2; half++) {
                /* "NONE is area and poly 16383, unk2 and unk3 zero." (a missing edge); "Surplus edges are ignored." */
                uint32_t area = 16383, poly = 16383, unk = 0;
                if (k < p->ne) { const uint32_t *e = p->edges + 6 * k + 3 * half; area = e[0]; poly = e[1]; unk = e[2]; }
                uint32_t a = 0;
                while (a < na && areas[a] != area) a++;
                if (a == na) {
                    if (na == 32) { refusal = 15; goto out; } /* "15 a 33rd area" */
                    areas[na++] = area;
                }
                /* "Edge half: area index in bits 0-4, poly 5-18, unk2 19-20, unk3 21-31." */
                uint32_t raw = a | (poly & 16383) << 5 | (unk >> 16 & 3) << 19 | (unk & 2047) << 21;
                for (int b = 0; b < 4; b++) edges[8 * ni + 4 * half + (size_t)b] = (uint8_t)(raw >> 8 * b);
            }
            ni++;
        }
        if (p->nl > 7) { refusal = 16; goto out; } /* "16 over 7 links" */
        /* "for x, y, z in turn floor of 4 x min, ceiling of 4 x max" */
        for (int a = 0; a < 3; a++) {
            w.boxes[i].q[2 * a] = (int16_t)quarter_min(lo[a]);
            w.boxes[i].q[2 * a + 1] = (int16_t)quarter_max(hi[a]);
        }
        /* "Polygon: flags0; vertex count at 2 in bits 5-15; start at 4; low 16 bits of area id at 6; quarter box at 0x18; flags1
         * 0x24; flags2 0x28; at 0x2C (number / 341, rounded down) x 16 + links x 4096 (bits 12-14) + links before it x 32768
         * (bits 15-31), numbers from 0." */
        Pages rec = { polys + 48 * i, 0, 0 };
        p16(&rec, 0, p->flags0); p16(&rec, 2, p->nv << 5); p16(&rec, 4, (uint32_t)start); p16(&rec, 6, c.area & 65535);
        for (size_t k = 0; k < 6; k++) p16(&rec, 0x18 + 2 * k, (uint16_t)w.boxes[i].q[k]);
        p32(&rec, 0x24, p->flags1); p32(&rec, 0x28, p->flags2);
        p32(&rec, 0x2C, (uint32_t)(i / 341) * 16 + p->nl * 4096 + (uint32_t)nl * 32768);
        for (uint32_t k = 0; k < p->nl; k++) { links[2 * nl] = (uint8_t)p->links[k]; links[2 * nl + 1] = (uint8_t)(p->links[k] >> 8); nl++; }
    }
    place = 0;
    /* "8. Writer: header, lists (header, parts, items, offsets) in the order vertices, indices, edges, polygons; sectors;
     * portals; links." "list vft 1080158456, 1080158424, 1080158440, 1080158408" */
    g_asked = g_skipped = 0;
    size_t header = block(&w.w, 368);
    size_t vertices_at = list(&w.w, 1080158456, vertices, nv, 6);
    size_t indices_at = list(&w.w, 1080158424, indices, ni, 2);
    size_t edges_at = list(&w.w, 1080158440, edges, ni, 8);
    size_t polys_at = list(&w.w, 1080158408, polys, c.np, 48);
    /* "Sectors: depth 2, or 0 if content bit 2 is set" */
    float min[3], max[3];
    for (int a = 0; a < 3; a++) { min[a] = g_float(c.min[a]); max[a] = g_float(c.max[a]); }
    size_t root = sector(&w, min, max, c.content & 4 ? 0 : 2);
    if (w.refusal) { refusal = w.refusal; place = w.place; goto out; }
    /* No. 6: "all points of the strip, dropped ones too" */
    for (size_t i = 0; i < c.nt; i++) { uint16_t q[3]; shorts(&w, c.point[i].pos, q); }
    if (c.no > 585) { refusal = 19; goto out; } /* "19 over 585 portals" */
    if (nl > 8192) { refusal = 20; goto out; }  /* "20 over 8,192 links" */
    /* "Total: ... 28 per portal, and the four lists' items." */
    w.total += 28 * (uint64_t)c.no + 6 * (uint64_t)nv + 2 * (uint64_t)ni + 8 * (uint64_t)ni + 48 * (uint64_t)c.np;
    size_t portals_at = 0, links_at = 0;
    if (c.no) {
        portals_at = block(&w.w, 28 * c.no);
        for (size_t i = 0; i < c.no; i++) {
            const Portal *p = &c.portal[i];
            size_t at = portals_at + 28 * i;
            uint16_t from[3], to[3];
            shorts(&w, p->from, from); shorts(&w, p->to, to);
            /* "Portal, 28 bytes: kind, angle, flags_unk, six shorts, poly_from twice, poly_to twice, area_from (14 bits), area_to
             * (14), area_unk (4)." */
            w.w.b[at] = (uint8_t)p->kind; w.w.b[at + 1] = (uint8_t)p->angle;
            p16(&w.w, at + 2, p->flags_unk);
            for (size_t a = 0; a < 3; a++) { p16(&w.w, at + 4 + 2 * a, from[a]); p16(&w.w, at + 10 + 2 * a, to[a]); }
            p16(&w.w, at + 16, p->poly_from); p16(&w.w, at + 18, p->poly_from);
            p16(&w.w, at + 20, p->poly_to); p16(&w.w, at + 22, p->poly_to);
            p32(&w.w, at + 24, (p->area_from & 16383) | (p->area_to & 16383) << 14 | (p->area_unk & 15) << 28);
        }
    }
    if (nl) {
        links_at = block(&w.w, 2 * nl);
        memcpy(w.w.b + links_at, links, 2 * nl);
    }
    /* "Header, 368 bytes at system 0: 0 vft; 4 is 1; 0x10 content flags; 0x14 is 0x10011; 0x20 4 x 4 floats by rows, diagonal 1,
     * column 3 the NaN 0x7FC00000 in every row, otherwise 0; 0x60 bb_size; 0x6C is 0x7F800001; ..." */
    Pages *o = &w.w;
    size_t h = header;
    p32(o, h, c.vft); p32(o, h + 4, 1); p32(o, h + 0x10, c.content); p32(o, h + 0x14, 0x10011);
    for (size_t row = 0; row < 4; row++)
        for (size_t col = 0; col < 4; col++)
            p32(o, h + 0x20 + 16 * row + 4 * col, col == 3 ? 0x7FC00000 : row == col ? 0x3F800000 : 0);
    for (size_t a = 0; a < 3; a++) p32(o, h + 0x60 + 4 * a, c.size[a]);
    p32(o, h + 0x6C, 0x7F800001);
    /* "addresses 0x70 vertices, 0x80 indices, 0x88 edges, 0x118 polygons, 0x120 root, 0x128 portals, 0x130 links; counts 0x90
     * indices, 0x94 areas, 0x138 vertices, 0x13C polygons, 0x148 points stored, 0x14C portals, 0x150 links; 0x98 32 areas; 0x140
     * area id; 0x144 total; 0x160 version. Otherwise zero." */
    p64(o, h + 0x70, address(vertices_at)); p64(o, h + 0x80, address(indices_at)); p64(o, h + 0x88, address(edges_at));
    p32(o, h + 0x90, (uint32_t)ni); p32(o, h + 0x94, na);
    for (uint32_t a = 0; a < na; a++) p32(o, h + 0x98 + 4 * a, areas[a]);
    p64(o, h + 0x118, address(polys_at)); p64(o, h + 0x120, address(root));
    p64(o, h + 0x128, c.no ? address(portals_at) : 0); p64(o, h + 0x130, nl ? address(links_at) : 0);
    p32(o, h + 0x138, (uint32_t)nv); p32(o, h + 0x13C, (uint32_t)c.np); p32(o, h + 0x140, c.area);
    p32(o, h + 0x144, (uint32_t)w.total); p32(o, h + 0x148, (uint32_t)w.stored); p32(o, h + 0x14C, (uint32_t)c.no);
    p32(o, h + 0x150, (uint32_t)nl); p32(o, h + 0x160, c.version);
    if (pages_len < o->end) { refusal = 2; goto out; } /* "2 output too short" */
    memcpy(pages, o->b, o->end);
    /* No. 2: "dropped counts the points whose position lies in no leaf" */
    uint64_t dropped = 0;
    for (size_t i = 0; i < c.nt; i++) if (!w.used[i]) dropped++;
    g_accept(answer, o->end, w.stored, dropped, w.outside, 0);
out:
    free(vertices); free(indices); free(edges); free(polys); free(links); free(head); free(next);
    free(w.boxes); free(w.used); free(w.w.b); g_free(&c);
    if (refusal) return g_refuse(answer, refusal, place);
    return 0;
}
