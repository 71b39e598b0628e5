/* The verified core of navmesh cells for C: the calls of libynv.a, which `sh tools/staticlib ynv` makes (x86-64 Linux).
 * C99, C11 and C++.
 *
 * One convention for every call:
 * - The result is 0, or the number of a refusal: a macro YNV_REFUSED_.. below, a sentence by ynv_sentence(), and what
 *   to do about it in docs/REFUSALS.md.
 * - `answer` is eight lent words. An accepted call writes them all, 0 where nothing is named below. A refusal writes
 *   answer[0] alone: its place, 0 where none is named.
 * - A refusal changes nothing else that was lent, except work. An accepted call leaves what lies behind its result as
 *   it was. Work may hold anything afterwards in its first words, two for each word of the strip; the words behind these
 *   are as they were, accepted or refused.
 * - Every content of the lent memory is allowed. A length counts elements: words of a strip, bytes of pages.
 *
 * What a caller owes, since no call can test it: pointers aligned for their type, with that many elements behind them;
 * memory that a call may write overlaps nothing else that is lent to it; and nobody else writes to lent memory until
 * the call returns. A call allocates nothing, keeps nothing and uses less than 1 MB of stack, so any number of threads
 * may call at once.
 *
 * NULL: `answer` is never NULL. Another pointer may be NULL where its length is 0, and is not followed then. This is
 * tried with the library (examples/c/check.c) and not proved: the proofs speak of slices, which are never NULL.
 *
 * Pages are the unpacked sections of a `.ynv`, system and graphics; what is written is a system section. A `.ynv` as
 * the game has it begins with RSC7 and is packed: unpack it first. docs/FORMAT.md has the layout of pages.
 *
 * A strip is a cell as 32-bit words. The top 4 bits of a record's first word are its kind; floats stand as their bits;
 * bits that nothing names are 0. In this order: one cell, polygons, portals, points, one end as the last word.
 *   1 cell     13 words follow: content flags, area id, version, vft, then min, max and size of the box (x, y, z each)
 *   2 polygon  bits 0-11 vertices, 12-23 edges, 24-27 links; follow flags0 (16 bits), flags1, flags2; a word per link
 *              (16 bits); 3 per vertex; 6 per edge, for half a and then b: area, poly, unk3 (bits 0-15) + unk2 (16-23)
 *   3 portal   bits 0-7 kind, 8-15 angle; follow flags_unk (16 bits); from; to; poly_from + 65,536 * poly_to;
 *              area_from + 65,536 * area_to; area_unk (8 bits)
 *   4 point    bits 0-7 angle, 8-15 kind; its position follows
 *   5 end
 *
 * What the fields mean is ynv.rs's to say (NOTICE); calls carry them:
 * - Polygons have their number by their order, from 0. Edge i leaves vertex i towards vertex i + 1, and the last one
 *   towards vertex 0. Its two halves name who lies across: an area (a cell's id) and a polygon there, YNV_NONE in both
 *   for nobody. The game's files have the same neighbour in both halves.
 * - A portal is a climb, a drop or a jump from one polygon to another. A link is an entry of the cell's portal-link
 *   table, which saving makes anew from the polygons' links in order: one for each portal that the polygon touches. No
 *   call looks at what it names; the samples put the portal's number there, from 0.
 * - An angle is a byte. ynv.rs names no unit for it, and none for the kinds of portals and points.
 */
#ifndef YNV_H
#define YNV_H

#include <stddef.h>
#include <stdint.h>
#include <string.h>

/* The version of this header, as in CHANGELOG.md. */
#define YNV_VERSION_MAJOR 0
#define YNV_VERSION_MINOR 1
#define YNV_VERSION_PATCH 0
#define YNV_VERSION "0.1.0"

/* Refusals, by the names that they have in the Rust crate. A comment says what the place counts, where there is one. */
#define YNV_REFUSED_TOO_LITTLE_WORK 1
#define YNV_REFUSED_TOO_SHORT 2
#define YNV_REFUSED_BAD_STRIP 3                  /* word of the strip */
#define YNV_REFUSED_LONG_INPUT 4                 /* no call: the program `cellsum` alone */
#define YNV_REFUSED_NO_SUCH_CELL 5
#define YNV_REFUSED_BOX_NOT_FINITE 10
#define YNV_REFUSED_MANY_POLYGONS 11
#define YNV_REFUSED_VERTEX_COUNT 12              /* polygon */
#define YNV_REFUSED_VERTEX_START 13              /* polygon */
#define YNV_REFUSED_MANY_VERTICES 14             /* polygon */
#define YNV_REFUSED_MANY_AREAS 15                /* polygon */
#define YNV_REFUSED_MANY_LINKS_OF_POLYGON 16     /* polygon */
#define YNV_REFUSED_MANY_POLYGONS_IN_LEAF 17     /* leaf */
#define YNV_REFUSED_MANY_POINTS_IN_LEAF 18       /* leaf */
#define YNV_REFUSED_MANY_PORTALS 19
#define YNV_REFUSED_MANY_LINKS 20
#define YNV_REFUSED_NO_HEADER 30
#define YNV_REFUSED_NO_TREE 31
#define YNV_REFUSED_BAD_SECTOR 32
#define YNV_REFUSED_MANY_SECTORS 33
#define YNV_REFUSED_BAD_SECTOR_DATA 34
#define YNV_REFUSED_BAD_LIST 35                  /* list: 1 vertices, 2 indices, 3 edges, 4 polygons */
#define YNV_REFUSED_LIST_COUNT 36                /* list, as 35 */
#define YNV_REFUSED_BAD_RUN 37                   /* polygon */
#define YNV_REFUSED_BAD_INDEX 38                 /* polygon */
#define YNV_REFUSED_BAD_PORTALS 39
#define YNV_REFUSED_PAGES_BOX_NOT_FINITE 40
#define YNV_REFUSED_THIN_POLYGON 41              /* polygon */
#define YNV_REFUSED_NO_SUCH_POLYGON 42
#define YNV_REFUSED_FEW_MARKS 43

/* Kinds of records, and the first word of one. */
#define YNV_KIND_CELL 1
#define YNV_KIND_POLYGON 2
#define YNV_KIND_PORTAL 3
#define YNV_KIND_POINT 4
#define YNV_KIND_END 5
#define YNV_KIND_OF(word) ((uint32_t)(word) >> 28)
#define YNV_CELL_WORD ((uint32_t)YNV_KIND_CELL << 28)
#define YNV_END_WORD ((uint32_t)YNV_KIND_END << 28)

/* Words of the records that have a fixed length, their first word among them. */
#define YNV_CELL_WORDS 14
#define YNV_PORTAL_WORDS 11
#define YNV_POINT_WORDS 4

/* Nobody: the area and the polygon of a half without a neighbour. */
#define YNV_NONE 16383

/* Content flags. A vehicle has one leaf; a cell without this flag has sixteen. */
#define YNV_CONTENT_POLYGONS 1
#define YNV_CONTENT_PORTALS 2
#define YNV_CONTENT_VEHICLE 4

/* What a maker of cells fills in. A cell of the map: its area id from its coordinates, which ynv_cell_for_position()
 * gives, and its version. A vehicle: its own two. Both have the same vft. */
#define YNV_AREA(cx, cy) ((uint32_t)(cy) * 100 + (uint32_t)(cx))
#define YNV_MAP_VERSION UINT32_C(0x85CB3561)
#define YNV_VEHICLE_AREA 10000
#define YNV_VEHICLE_VERSION 0
#define YNV_NAVMESH_VFT UINT32_C(0x4061E7E8)

/* Bits of a polygon's flags that ynv.rs names. */
#define YNV_FLAGS0_FOOTPATH 4
#define YNV_FLAGS0_STEEP 64
#define YNV_FLAGS0_WATER 128
#define YNV_FLAGS1_INTERIOR 64
#define YNV_FLAGS1_FLAT_GROUND 512
#define YNV_FLAGS1_ROAD 1024
#define YNV_FLAGS1_CELL_EDGE 2048

#ifdef __cplusplus
extern "C" {
#endif

/* Reads a cell's pages into `strip`.
 * Answer: words of the strip, polygons, portals, points, sectors visited. The cell is answer[0] words: to write it again,
 * lend ynv_serialize so many and not the whole buffer, whose rest is as it was.
 * Refusals: 30 header; 31, 32, 33 sector tree; 34 a sector's data or points; 35, 36 lists (place: 1 vertices,
 * 2 indices, 3 edges, 4 polygons); 37, 38 a polygon (place: its number); 39 portals; 40 box; 2 the strip is too short.
 * Lend: with ynv_strip_words() words 2 never comes for pages that ynv_serialize wrote, which is proved. Pages from
 * elsewhere may let polygons share their vertices' run and so hold a longer cell: at 2, lend more and call again.
 * Time: grows with what the pages name, not with their length. Pages of 64 KB that name the same polygons again and
 * again are looked through for seconds before they are refused. */
uint32_t ynv_parse(const uint8_t *system, size_t system_len, const uint8_t *graphics, size_t graphics_len,
                   uint32_t *strip, size_t strip_len, uint64_t answer[8]);

/* Writes a strip's cell as pages, a system section.
 * Answer: length of the pages in bytes, points stored, points dropped, coordinates pushed to the border. A point is stored
 * once, in the first leaf that contains it in x and y, borders included. One that no leaf contains, outside the box or with
 * a NaN, is dropped, which is no refusal: tell whoever draws where answer[2] isn't 0. The two add up to how many points the
 * strip has, which is proved.
 * answer[3] counts, coordinate by coordinate, the vertices of all polygons as often as they stand there, both ends of all
 * portals and all points, dropped ones too: how many lie before bb_min or beyond the other end of a side of bb_size, or
 * are a NaN. In the pages they stand at the border, a NaN at bb_min. What rounding brings to the border is inside, and no
 * coordinate counts on a side below 2^-23. Tell whoever draws where it isn't 0.
 * Refusals: 3 badly formed strip (place: word); 1 too little work; 10 box; 11, 19, 20 too many polygons, portals or
 * links; 12 to 16 a polygon (place: its number); 17, 18 a leaf (place: its number); 2 the pages' room is too short.
 * Lend: ynv_work_words() words of work and ynv_pages_bytes() bytes of pages. With so much neither 1 nor 2 ever comes,
 * which is proved. Of work the first ynv_work_used() words alone are written to; those behind them come back unchanged,
 * refused or not, whatever the refusal, which is proved too. So where memory is scarce, the half behind may hold
 * something else of the caller's meanwhile, but nothing that is lent to this call.
 * Time: milliseconds for the largest cells, whatever their vertices are. */
uint32_t ynv_serialize(const uint32_t *strip, size_t strip_len, uint32_t *work, size_t work_len,
                       uint8_t *pages, size_t pages_len, uint64_t answer[8]);

/* Counts the seams of a strip: halves of its edges, surplus ones too, whose area touches the cell's. Two areas below
 * 10000 touch when they differ by 100, or by 1 within the same row of a hundred: when their cells share a side, which is
 * proved. An area of 10000 or more touches none: neither a vehicle's, nor 16383, which stands for none. Up to 0.1.0 any
 * areas that differ by 1 or 100 counted.
 * Answer: the count.
 * Refusals: 3 badly formed strip (place: word). */
uint32_t ynv_count_seams(const uint32_t *strip, size_t strip_len, uint64_t answer[8]);

/* The spot of a position, for ynv_pick_poly(): the shorts that saving stores of a vertex there, from 0 at bb_min up to
 * 65535 at the other end of a side of bb_size, and 0 everywhere on a side below 2^-23. What lies outside the box goes to
 * its border, and a NaN to 0: so test first whether the cursor is in the box, or it may pick a polygon at the near
 * border. From the cursor to the polygon:
 *     if (ynv_spot_for_position(strip, strip_len, x, y, answer) == 0 &&
 *         ynv_pick_poly(strip, strip_len, (uint16_t)answer[0], (uint16_t)answer[1], answer) == 0 && answer[0] == 1)
 *         show(answer[1]);
 * Lend the strip's own words, as for ynv_serialize: a longer buffer is refused with 3.
 * Answer: x, y.
 * Refusals: 3 badly formed strip (place: word); 10 box. */
uint32_t ynv_spot_for_position(const uint32_t *strip, size_t strip_len, float x, float y, uint64_t answer[8]);

/* The polygon under the cursor: the lowest-numbered one that contains the spot (x, y). Vertices count as their spots, and
 * their z doesn't count; a polygon contains a spot from which an odd number of its sides is crossed towards greater
 * x. So a rectangle contains the spots from its least x and y on and below its greatest: two side by side share no spot
 * and leave none out. At 65535, the far sides of the box and half a step before them, there is no polygon. Takes any
 * number of polygons, of 0 to 4,095 vertices; fewer than 3 contain nothing.
 * Answer: 1 and the polygon's number, or 0 and 0 where no polygon contains the spot, which is no refusal.
 * Refusals: 3 badly formed strip (place: word); 10 box.
 * Time: each call looks through the strip, in 0.2 ms with 5,000 polygons. */
uint32_t ynv_pick_poly(const uint32_t *strip, size_t strip_len, uint16_t x, uint16_t y, uint64_t answer[8]);

/* Writes a strip's polygons into `text` as Wavefront OBJ, for a modelling program: `v X Y Z` for each vertex of each polygon
 * in order, in shorts of the cell's box as saving stores them, then `f` and its vertices' numbers for each polygon, counted
 * from 1 through the whole text. Each line ends in a newline; the text has no NUL behind it. Vertices are not shared;
 * portals and points are left behind. Takes any number of polygons, of 3 to 4,095 vertices; none make no text.
 * Answer: bytes of the text.
 * Refusals: 3 badly formed strip (place: word); 10 box; 41 a polygon with fewer than 3 vertices (place: its number); 2 the
 * text is too short.
 * Lend: with ynv_obj_bytes() bytes 2 never comes, which is proved. With less the vertices may be gone through twice, since
 * the text's length is decided before a byte is written. */
uint32_t ynv_export_obj(const uint32_t *strip, size_t strip_len, uint8_t *text, size_t text_len, uint64_t answer[8]);

/* Where a walker can get to: marks 1 each polygon to which some chain of steps leads from polygon `start`, the start
 * included, and 0 the others; a byte of `marks` to a polygon, and bytes behind them stay. A step goes over a half of an
 * edge, either one, whose area is the cell's own id and whose poly, cut to 14 bits, is below 16383 and a polygon of the
 * strip; only edges below the vertex count serve. A portal whose two areas are the own id is a step from poly_from to
 * poly_to, one way: its polys are not cut, 16383 is a number like others, and a target past the last polygon leads
 * nowhere. A cell whose id is 65536 or more has no such portal. Other cells are not looked at.
 * Answer: how many polygons are marked, 1 or more.
 * Refusals: 3 badly formed strip (place: word); 42 `start` is no polygon; 43 fewer bytes than polygons. Then no byte changes.
 * Lend: a byte for each polygon, which answer[1] of ynv_parse counts; strip_len / 4 bytes are always enough.
 * Time: 0.2 ms with 5,000 polygons; at most 4 ms was found with 65,536 polygons and 65,535 portals. A cell that can be saved
 * has at most 585 portals; pages that others made can hold any number. With more than 65,535 the bound is the polygons
 * marked times the polygons and portals there are, 1 to 2 ns for each pair: 23 s with 131,070 portals made to cost much,
 * which 3.7 MB of pages can hold, some two minutes with a million portals and 65,536 polygons. Who takes pages from
 * strangers can look at answer[2] of ynv_parse first.
 * Stack: 12 KB with up to 256 polygons and portals, 33 KB up to 2,048, 0.2 MB up to 16,384, 0.4 MB past that. */
uint32_t ynv_reachable(const uint32_t *strip, size_t strip_len, uint64_t start, uint8_t *marks, size_t marks_len,
                       uint64_t answer[8]);

/* The cell of the map's grid, 100 by 100 cells of 150 from -6000, in which a position lies. A position outside the map
 * gives the nearest cell, a NaN coordinate 0.
 * Answer: cx, cy.
 * Refusals: none. */
uint32_t ynv_cell_for_position(float x, float y, uint64_t answer[8]);

/* The bounds of a cell of the grid.
 * Answer: min x, min y, max x, max y, as the bits of floats; ynv_float() turns them back.
 * Refusals: 5 cx or cy is above 99. */
uint32_t ynv_cell_bounds(uint32_t cx, uint32_t cy, uint64_t answer[8]);

/* Words that any strip takes which is read from pages that ynv_serialize wrote: 16,383 polygons, 67,582 vertices and
 * edges, 8,192 links, 585 portals and 32,768 points make 819,484. */
#define YNV_MOST_WORDS ((size_t)819484)

/* Bytes that any written cell takes: at most 200 blocks, and a block moves the end by at most 32,768. */
#define YNV_MOST_BYTES ((size_t)6553600)

/* Words of strip to lend for such pages: one for each byte of both sections, since every record takes at least as many
 * bytes in pages as words in a strip (proved: crate `rooms`, strip_room_lem). */
static inline size_t ynv_strip_words(size_t system_len, size_t graphics_len)
{
    if (system_len >= YNV_MOST_WORDS || graphics_len >= YNV_MOST_WORDS - system_len)
        return YNV_MOST_WORDS;
    return system_len + graphics_len;
}

/* Words of work to lend for a strip. */
static inline size_t ynv_work_words(size_t strip_len)
{
    return 4 * strip_len;
}

/* Words at the front of work that ynv_serialize may change; it changes none behind them. */
static inline size_t ynv_work_used(size_t strip_len)
{
    return 2 * strip_len;
}

/* Bytes of pages to lend for a strip, from its length alone (proved: crate `rooms`, pages_room_lem). A block and what is
 * skipped before it take at most twice its bytes and 15. The dearest words are a triangle's, 128 bytes to 13 words;
 * header, list headers and sectors, which every cell has, take less than 8,192 bytes with what is skipped. */
static inline size_t ynv_pages_bytes(size_t strip_len)
{
    return strip_len > (YNV_MOST_BYTES - 8192) / 20 ? YNV_MOST_BYTES : 20 * strip_len + 8192;
}

/* Bytes of text to lend for a strip's drawing (proved: crate `obj`, room_enough). A vertex takes three words, 20 bytes of its
 * line and 21 of its number at most. */
static inline size_t ynv_obj_bytes(size_t strip_len)
{
    return strip_len > SIZE_MAX / 14 ? SIZE_MAX : 14 * strip_len;
}

/* The float of a word that holds its bits. */
static inline float ynv_float(uint64_t word)
{
    uint32_t bits = (uint32_t)word;
    float value;
    memcpy(&value, &bits, sizeof value);
    return value;
}

/* The word that holds a float's bits. */
static inline uint32_t ynv_bits(float value)
{
    uint32_t bits;
    memcpy(&bits, &value, sizeof bits);
    return bits;
}

/* The first word of a polygon's record; 0 where a count doesn't fit (4,095 vertices, 4,095 edges, 15 links). No record
 * begins with 0, so a strip that holds it is refused with 3 at that word, and no count spills into the next one. */
static inline uint32_t ynv_polygon_word(size_t vertices, size_t edges, size_t links)
{
    if (vertices > 4095 || edges > 4095 || links > 15)
        return 0;
    return (uint32_t)YNV_KIND_POLYGON << 28 | (uint32_t)links << 24 | (uint32_t)edges << 12 | (uint32_t)vertices;
}

/* The first word of a portal's record. */
static inline uint32_t ynv_portal_word(uint8_t kind, uint8_t angle)
{
    return (uint32_t)YNV_KIND_PORTAL << 28 | (uint32_t)angle << 8 | kind;
}

/* The first word of a point's record: here the angle is the low byte. */
static inline uint32_t ynv_point_word(uint8_t angle, uint8_t kind)
{
    return (uint32_t)YNV_KIND_POINT << 28 | (uint32_t)kind << 8 | angle;
}

/* What the place of a refusal counts: "word", "polygon", "leaf" or "list"; "" where there is no place. */
static inline const char *ynv_place(uint32_t number)
{
    switch (number) {
    case YNV_REFUSED_BAD_STRIP:
        return "word";
    case YNV_REFUSED_VERTEX_COUNT: case YNV_REFUSED_VERTEX_START: case YNV_REFUSED_MANY_VERTICES:
    case YNV_REFUSED_MANY_AREAS: case YNV_REFUSED_MANY_LINKS_OF_POLYGON: case YNV_REFUSED_BAD_RUN:
    case YNV_REFUSED_BAD_INDEX: case YNV_REFUSED_THIN_POLYGON:
        return "polygon";
    case YNV_REFUSED_MANY_POLYGONS_IN_LEAF: case YNV_REFUSED_MANY_POINTS_IN_LEAF:
        return "leaf";
    case YNV_REFUSED_BAD_LIST: case YNV_REFUSED_LIST_COUNT:
        return "list";
    default:
        return "";
    }
}

/* The sentence of a refusal, that of docs/REFUSALS.md. */
static inline const char *ynv_sentence(uint32_t number)
{
    switch (number) {
    case 0:
        return "Accepted.";
    case YNV_REFUSED_TOO_LITTLE_WORK:
        return "The work memory is too small: lend at least four words for each word of the strip.";
    case YNV_REFUSED_TOO_SHORT:
        return "The output is too short for the result.";
    case YNV_REFUSED_BAD_STRIP:
        return "The strip is badly formed at this record: the bad record's first word; the strip's length if it ends "
               "early; the first word after its end if more follow.";
    case YNV_REFUSED_LONG_INPUT:
        return "The program's input is longer than 65,536 bytes.";
    case YNV_REFUSED_NO_SUCH_CELL:
        return "The cell coordinate is above 99.";
    case YNV_REFUSED_BOX_NOT_FINITE:
        return "The cell's box (min, max or size) has a number that is infinite or not a number.";
    case YNV_REFUSED_MANY_POLYGONS:
        return "The cell has more than 16,383 polygons.";
    case YNV_REFUSED_VERTEX_COUNT:
        return "The polygon has fewer than 3 or more than 2,047 vertices.";
    case YNV_REFUSED_VERTEX_START:
        return "The polygons before this one have more than 65,535 vertices together.";
    case YNV_REFUSED_MANY_VERTICES:
        return "The cell would need a 65,537th distinct vertex.";
    case YNV_REFUSED_MANY_AREAS:
        return "The cell's edges would name a 33rd area.";
    case YNV_REFUSED_MANY_LINKS_OF_POLYGON:
        return "The polygon has more than 7 portal links.";
    case YNV_REFUSED_MANY_POLYGONS_IN_LEAF:
        return "More than 8,192 polygons touch this leaf of the cell's quadtree (a sixteenth of a map cell, or all "
               "of a vehicle).";
    case YNV_REFUSED_MANY_POINTS_IN_LEAF:
        return "More than 2,048 points lie in this leaf.";
    case YNV_REFUSED_MANY_PORTALS:
        return "The cell has more than 585 portals.";
    case YNV_REFUSED_MANY_LINKS:
        return "The cell has more than 8,192 portal links.";
    case YNV_REFUSED_NO_HEADER:
        return "The pages have no whole header.";
    case YNV_REFUSED_NO_TREE:
        return "The pages have no sector tree.";
    case YNV_REFUSED_BAD_SECTOR:
        return "A sector does not lie inside its section.";
    case YNV_REFUSED_MANY_SECTORS:
        return "The sector tree has more than 4,096 sectors, or goes in a circle.";
    case YNV_REFUSED_BAD_SECTOR_DATA:
        return "A sector's data or points do not lie inside their section.";
    case YNV_REFUSED_BAD_LIST:
        return "The list's header, part table or a part does not lie inside its section.";
    case YNV_REFUSED_LIST_COUNT:
        return "The list's parts do not add up to its count.";
    case YNV_REFUSED_BAD_RUN:
        return "The polygon's run does not lie inside the indices and the edges.";
    case YNV_REFUSED_BAD_INDEX:
        return "The polygon names a vertex that isn't there.";
    case YNV_REFUSED_BAD_PORTALS:
        return "The portals do not lie inside their section.";
    case YNV_REFUSED_PAGES_BOX_NOT_FINITE:
        return "The box in the pages has a number that is infinite or not a number.";
    case YNV_REFUSED_THIN_POLYGON:
        return "The polygon has fewer than 3 vertices, so there is nothing of it to draw.";
    case YNV_REFUSED_NO_SUCH_POLYGON:
        return "The strip has no polygon of this number to start from.";
    case YNV_REFUSED_FEW_MARKS:
        return "There are fewer bytes for marks than the strip has polygons.";
    default:
        return "The refusal table has no such number.";
    }
}

#ifdef __cplusplus
}
#endif

#endif
