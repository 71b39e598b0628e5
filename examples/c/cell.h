/* A cell that grows record by record: a strip with a function for each kind of record, and the calls that save it and
 * open it again. build.c and samples.c use it; take what you need. Where there is trouble a program ends, status 2. */
#ifndef CELL_H
#define CELL_H

#include <inttypes.h>
#include <stdio.h>
#include <stdlib.h>

#include "ynv.h"

struct strip {
    uint32_t *at;
    size_t length, room;
};

struct bytes {
    uint8_t *at;
    size_t length;
};

struct position {
    float x, y, z;
};

/* Who lies across an edge. */
struct neighbour {
    uint32_t area, poly;
};

/* A polygon to be put: `count` vertices with a neighbour for the edge from each to the next. */
struct polygon {
    const struct position *vertices;
    const struct neighbour *neighbours;
    size_t count;
    uint16_t flags0;
    uint32_t flags1, flags2;
    const uint16_t *links;
    size_t link_count;
};

/* A portal between two polygons of one cell. */
struct portal {
    uint8_t kind, angle;
    struct position from, to;
    uint16_t poly_from, poly_to, area;
};

static inline void trouble(const char *what)
{
    fprintf(stderr, "%s\n", what);
    exit(2);
}

static inline void *room(void *old, size_t count, size_t size)
{
    void *at = count <= SIZE_MAX / size ? realloc(old, count * size) : NULL;
    if (at == NULL)
        trouble("out of memory");
    return at;
}

static inline void put(struct strip *strip, uint32_t word)
{
    if (strip->length == strip->room) {
        strip->room = strip->room ? 2 * strip->room : 1024;
        strip->at = (uint32_t *)room(strip->at, strip->room, sizeof *strip->at);
    }
    strip->at[strip->length++] = word;
}

static inline void put_position(struct strip *strip, struct position p)
{
    put(strip, ynv_bits(p.x));
    put(strip, ynv_bits(p.y));
    put(strip, ynv_bits(p.z));
}

/* The cell's record. The size of a box is its max less its min, by which vertices become shorts. */
static inline void put_cell(struct strip *strip, uint32_t content, uint32_t area, uint32_t version, struct position min,
                            struct position max)
{
    struct position size = { max.x - min.x, max.y - min.y, max.z - min.z };
    put(strip, YNV_CELL_WORD);
    put(strip, content);
    put(strip, area);
    put(strip, version);
    put(strip, YNV_NAVMESH_VFT);
    put_position(strip, min);
    put_position(strip, max);
    put_position(strip, size);
}

/* A polygon's record. Both halves of an edge get the same neighbour, as in the game's files. */
static inline void put_polygon(struct strip *strip, const struct polygon *p)
{
    put(strip, ynv_polygon_word(p->count, p->count, p->link_count));
    put(strip, p->flags0);
    put(strip, p->flags1);
    put(strip, p->flags2);
    for (size_t i = 0; i < p->link_count; i++)
        put(strip, p->links[i]);
    for (size_t i = 0; i < p->count; i++)
        put_position(strip, p->vertices[i]);
    for (size_t i = 0; i < p->count; i++) {
        for (int half = 0; half < 2; half++) {
            put(strip, p->neighbours[i].area);
            put(strip, p->neighbours[i].poly);
            put(strip, 0);
        }
    }
}

static inline void put_portal(struct strip *strip, const struct portal *p)
{
    put(strip, ynv_portal_word(p->kind, p->angle));
    put(strip, 0);
    put_position(strip, p->from);
    put_position(strip, p->to);
    put(strip, (uint32_t)p->poly_to << 16 | p->poly_from);
    put(strip, (uint32_t)p->area << 16 | p->area);
    put(strip, 0);
}

static inline void put_point(struct strip *strip, uint8_t angle, uint8_t kind, struct position p)
{
    put(strip, ynv_point_word(angle, kind));
    put_position(strip, p);
}

static inline void put_end(struct strip *strip)
{
    put(strip, YNV_END_WORD);
}

/* A refusal as a line of text. */
static inline void print_refusal(FILE *out, uint32_t number, uint64_t place)
{
    const char *counted = ynv_place(number);
    fprintf(out, "refused %" PRIu32, number);
    if (counted[0] != '\0')
        fprintf(out, " at %s %" PRIu64, counted, place);
    fprintf(out, ": %s\n", ynv_sentence(number));
}

/* Saves a strip as pages. The result is 0, with points stored and dropped in answer[1] and answer[2] and coordinates pushed
 * to the border in answer[3], or the number of the refusal, whose place is in answer[0]. */
static inline uint32_t save(const struct strip *strip, struct bytes *pages, uint64_t answer[8])
{
    size_t work_words = ynv_work_words(strip->length);
    size_t most = ynv_pages_bytes(strip->length);
    uint32_t *work = (uint32_t *)room(NULL, work_words, sizeof *work);
    uint32_t number;
    pages->at = (uint8_t *)room(NULL, most, 1);
    number = ynv_serialize(strip->at, strip->length, work, work_words, pages->at, most, answer);
    pages->length = number == 0 ? (size_t)answer[0] : 0;
    free(work);
    return number;
}

/* Opens pages that save() made, and so lends enough. Answer: as ynv_parse(). */
static inline struct strip open_saved(struct bytes pages, uint64_t answer[8])
{
    struct strip strip;
    uint32_t number;
    strip.room = ynv_strip_words(pages.length, 0);
    strip.at = (uint32_t *)room(NULL, strip.room, sizeof *strip.at);
    number = ynv_parse(pages.at, pages.length, NULL, 0, strip.at, strip.room, answer);
    if (number != 0) {
        print_refusal(stderr, number, answer[0]);
        trouble("what was saved must open");
    }
    strip.length = (size_t)answer[0];
    return strip;
}

#endif
