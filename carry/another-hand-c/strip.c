/* The strip: document 01, section "Strip", and refusal 3. */
#include "g.h"

void g_free(Cell *c) { free(c->poly); free(c->portal); free(c->point); }

static void *grow(void *p, size_t used, size_t *room, size_t size)
{
    if (used < *room)
        return p;
    *room = *room ? *room * 2 : 16;
    p = realloc(p, *room * size);
    if (!p) abort();
    return p;
}

uint32_t g_scan(const uint32_t *w, size_t n, Cell *c, uint64_t *place)
{
    memset(c, 0, sizeof *c);
    size_t at = 0;
    uint32_t last = 0; /* kind of the record before; 0 before the first */
    for (;;) {
        /* "place: ... the strip's length if it ends early or lacks its end" */
        if (at == n) { *place = n; goto bad; }
        uint32_t first = w[at], kind = first >> 28; /* "the top 4 bits of a record's first word its kind" */
        /* "A record's first word is judged, then whether all its words are there, then the rest."
         * "Order: one cell, polygons, portals, points, one end as the last word." */
        *place = at; /* "place: first word of the bad record" */
        if (kind < 1 || kind > 5) goto bad;
        if (last == 0 && kind != 1) goto bad;
        if (last != 0 && kind == 1) goto bad;
        if (kind < last) goto bad;
        /* "Unnamed bits are zero." */
        if (kind == 1 && (first & 0x0FFFFFFF) != 0) goto bad;
        if (kind == 3 && (first & 0x0FFF0000) != 0) goto bad; /* "portal: bits 0-7 kind, 8-15 angle" */
        if (kind == 4 && (first & 0x0FFF0000) != 0) goto bad; /* "point: bits 0-7 angle, 8-15 kind" */
        if (kind == 5 && (first & 0x0FFFFFFF) != 0) goto bad;
        last = kind;
        if (kind == 5) {
            /* "the first word after the end if more follow" */
            if (at + 1 != n) { *place = at + 1; goto bad; }
            return 0;
        }
        uint32_t nv = first & 4095, ne = first >> 12 & 4095, nl = first >> 24 & 15;
        uint64_t len = 0;
        if (kind == 1) len = 1 + 13; /* "cell: 13 words follow" */
        if (kind == 2) len = 1 + 3 + (uint64_t)nl + 3 * (uint64_t)nv + 6 * (uint64_t)ne;
        if (kind == 3) len = 1 + 1 + 3 + 3 + 1 + 1 + 1;
        if (kind == 4) len = 1 + 3;
        if (n - at < len) { *place = n; goto bad; }
        const uint32_t *r = w + at;
        if (kind == 1) {
            /* "content flags, area id, version, vft, then bb_min, bb_max, bb_size (x, y, z each)" */
            c->content = r[1]; c->area = r[2]; c->version = r[3]; c->vft = r[4];
            memcpy(c->min, r + 5, 12); memcpy(c->max, r + 8, 12); memcpy(c->size, r + 11, 12);
        }
        if (kind == 2) {
            /* "flags0 (16 bits), flags1, flags2; a word per link (16 bits); 3 per vertex; 6 per edge, for half a,
             * then b: area, poly, and unk3 (bits 0-15) with unk2 (16-23)" */
            Poly p = { nv, ne, nl, r[1], r[2], r[3], r + 4, r + 4 + nl, r + 4 + nl + 3 * nv };
            if (p.flags0 >> 16) goto bad;
            for (uint32_t i = 0; i < nl; i++) if (p.links[i] >> 16) goto bad;
            for (uint32_t i = 0; i < 2 * ne; i++) if (p.edges[3 * i + 2] >> 24) goto bad;
            c->poly = grow(c->poly, c->np, &c->cp, sizeof *c->poly);
            c->poly[c->np++] = p;
        }
        if (kind == 3) {
            /* "flags_unk (16 bits); from; to; poly_from + 65,536 x poly_to; area_from + 65,536 x area_to;
             * area_unk (8 bits)" */
            Portal p = { first & 255, first >> 8 & 255, r[1], { r[2], r[3], r[4] }, { r[5], r[6], r[7] },
                         r[8] & 65535, r[8] >> 16, r[9] & 65535, r[9] >> 16, r[10] };
            if (p.flags_unk >> 16) goto bad;
            if (p.area_unk >> 8) goto bad;
            c->portal = grow(c->portal, c->no, &c->co, sizeof *c->portal);
            c->portal[c->no++] = p;
        }
        if (kind == 4) {
            Point p = { first & 255, first >> 8 & 255, { r[1], r[2], r[3] } };
            c->point = grow(c->point, c->nt, &c->ct, sizeof *c->point);
            c->point[c->nt++] = p;
        }
        at += len;
    }
bad:
    g_free(c);
    return 3;
}

/* "10 box (min, max or size) not finite" */
int g_box_finite(const Cell *c)
{
    for (int i = 0; i < 3; i++)
        if (!g_finite(c->min[i]) || !g_finite(c->max[i]) || !g_finite(c->size[i]))
            return 0;
    return 1;
}
