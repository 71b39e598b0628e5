/* G: independent versions of the exported calls, from documents 01 and 02 and the original Rust. Same signatures as ynv.h,
 * prefix g_. `answer` and refusals as ynv.h has them. */
#ifndef G_H
#define G_H
#include <stddef.h>
#include <stdint.h>
#include <stdlib.h>
#include <string.h>
#include <math.h>
#include <float.h>
#include <stdio.h>

typedef struct { uint32_t nv, ne, nl, flags0, flags1, flags2; const uint32_t *links, *verts, *edges; } Poly;
typedef struct { uint32_t kind, angle, flags_unk, from[3], to[3], poly_from, poly_to, area_from, area_to, area_unk; } Portal;
typedef struct { uint32_t angle, kind, pos[3]; } Point;
typedef struct {
    uint32_t content, area, version, vft, min[3], max[3], size[3];
    Poly *poly; size_t np, cp;
    Portal *portal; size_t no, co;
    Point *point; size_t nt, ct;
} Cell;

/* 0 or 3 with the place. On 0 the cell must be freed. */
uint32_t g_scan(const uint32_t *w, size_t n, Cell *c, uint64_t *place);
void g_free(Cell *c);
int g_box_finite(const Cell *c);

static inline float g_float(uint32_t bits) { float f; memcpy(&f, &bits, 4); return f; }
static inline uint32_t g_bits(float f) { uint32_t b; memcpy(&b, &f, 4); return b; }
static inline int g_finite(uint32_t bits) { return (bits >> 23 & 255) != 255; }

typedef struct { uint16_t q; int outside; } Short;
Short g_short(float a, float lo, float extent);

uint32_t g_parse(const uint8_t *, size_t, const uint8_t *, size_t, uint32_t *, size_t, uint64_t[8]);
uint32_t g_serialize(const uint32_t *, size_t, uint32_t *, size_t, uint8_t *, size_t, uint64_t[8]);
uint32_t g_count_seams(const uint32_t *, size_t, uint64_t[8]);
uint32_t g_spot_for_position(const uint32_t *, size_t, float, float, uint64_t[8]);
uint32_t g_pick_poly(const uint32_t *, size_t, uint16_t, uint16_t, uint64_t[8]);
uint32_t g_export_obj(const uint32_t *, size_t, uint8_t *, size_t, uint64_t[8]);
uint32_t g_reachable(const uint32_t *, size_t, uint64_t, uint8_t *, size_t, uint64_t[8]);
uint32_t g_cell_for_position(float, float, uint64_t[8]);
uint32_t g_cell_bounds(uint32_t, uint32_t, uint64_t[8]);

/* ynv.h: "A refusal writes answer[0] alone: its place, 0 where none is named." */
static inline uint32_t g_refuse(uint64_t answer[8], uint32_t number, uint64_t place) { answer[0] = place; return number; }
/* ynv.h: "An accepted call writes them all, 0 where nothing is named below." */
static inline uint32_t g_accept(uint64_t answer[8], uint64_t a, uint64_t b, uint64_t c, uint64_t d, uint64_t e)
{
    answer[0] = a; answer[1] = b; answer[2] = c; answer[3] = d; answer[4] = e; answer[5] = answer[6] = answer[7] = 0;
    return 0;
}
#endif
