/* Makes the cells of samples/: `samples FOLDER` writes NAME.strip (the strip's words, little-endian) and NAME.pages for
 * each, and prints a line each. Every coordinate is a multiple of 1/4 and nothing is left to chance, so the same files
 * come out each time.
 * Status: 0, or 2 where there is trouble, as where the library answers something else than samples/README.md says. */
#include "cell.h"

static const struct neighbour nobody = { YNV_NONE, YNV_NONE };

static int same(struct position a, struct position b)
{
    return a.x == b.x && a.y == b.y && a.z == b.z;
}

/* The neighbour of edge i of polygon k: the polygon among `count` that has the same edge the other way round. */
static struct neighbour across(const struct polygon *polygons, size_t count, uint32_t area, size_t k, size_t i)
{
    const struct polygon *mine = &polygons[k];
    struct position from = mine->vertices[i], to = mine->vertices[(i + 1) % mine->count];
    for (size_t n = 0; n < count; n++) {
        const struct polygon *other = &polygons[n];
        for (size_t e = 0; n != k && e < other->count; e++) {
            if (same(other->vertices[e], to) && same(other->vertices[(e + 1) % other->count], from)) {
                struct neighbour found = { area, (uint32_t)n };
                return found;
            }
        }
    }
    return nobody;
}

/* Edges along x = `border` lead to polygons 0, 1, 2 and so on of another cell; further ones to nobody. */
struct border {
    float x;
    uint32_t area, polygons;
};

static const struct border no_border = { 0, YNV_NONE, 0 };

/* Puts polygons whose neighbours follow from their vertices. At most 8 vertices each. */
static void put_joined(struct strip *strip, const struct polygon *polygons, size_t count, uint32_t area,
                       struct border border)
{
    uint32_t used = 0;
    for (size_t k = 0; k < count; k++) {
        struct neighbour neighbours[8];
        struct polygon joined = polygons[k];
        if (joined.count > 8)
            trouble("a sample's polygon has more than 8 vertices");
        for (size_t i = 0; i < joined.count; i++) {
            float x = joined.vertices[i].x, next = joined.vertices[(i + 1) % joined.count].x;
            neighbours[i] = across(polygons, count, area, k, i);
            if (x == border.x && next == border.x && used < border.polygons) {
                neighbours[i].area = border.area;
                neighbours[i].poly = used++;
            }
        }
        joined.neighbours = neighbours;
        put_polygon(strip, &joined);
    }
}

/* A cell of the map, whose sides come from the grid. */
static void put_map_cell(struct strip *strip, uint32_t content, uint32_t cx, uint32_t cy, float low, float high)
{
    uint64_t answer[8];
    struct position min = { 0, 0, low }, max = { 0, 0, high };
    if (ynv_cell_bounds(cx, cy, answer) != 0)
        trouble("no such cell");
    min.x = ynv_float(answer[0]);
    min.y = ynv_float(answer[1]);
    max.x = ynv_float(answer[2]);
    max.y = ynv_float(answer[3]);
    put_cell(strip, content, YNV_AREA(cx, cy), YNV_MAP_VERSION, min, max);
}

/* A level rectangle, anticlockwise from its least corner. */
static void rectangle(struct position vertices[4], float x0, float y0, float x1, float y1, float z)
{
    const struct position corners[4] = { { x0, y0, z }, { x1, y0, z }, { x1, y1, z }, { x0, y1, z } };
    for (int i = 0; i < 4; i++)
        vertices[i] = corners[i];
}

/* A walled yard with a gate to a street in the east, meadows around it, and a shed whose roof can be climbed. The
 * street goes on in the cell to the east. Where a long side meets two short ones it has a vertex between them. */
enum { YARD = 4040, FLAT = YNV_FLAGS1_FLAT_GROUND, STREET = FLAT | YNV_FLAGS1_ROAD | YNV_FLAGS1_CELL_EDGE };

static const struct position yard_south[] = { { 40, 40, 20 }, { 100, 40, 20 }, { 100, 64, 20 }, { 40, 64, 20 } };
static const struct position yard_middle[] = {
    { 40, 64, 20 }, { 100, 64, 20 }, { 100, 76, 20 }, { 70, 76, 20 }, { 40, 76, 20 } };
static const struct position yard_north_west[] = { { 40, 76, 20 }, { 70, 76, 20 }, { 70, 100, 20 }, { 40, 100, 20 } };
static const struct position yard_north_east[] = { { 70, 76, 20 }, { 100, 76, 20 }, { 100, 100, 20 }, { 70, 100, 20 } };
static const struct position gate[] = { { 100, 64, 20 }, { 104, 64, 20 }, { 104, 76, 20 }, { 100, 76, 20 } };
static const struct position street_south[] = {
    { 104, 0, 20 }, { 150, 0, 20 }, { 150, 64, 20 }, { 104, 64, 20 }, { 104, 36, 20 } };
static const struct position street_middle[] = { { 104, 64, 20 }, { 150, 64, 20 }, { 150, 76, 20 }, { 104, 76, 20 } };
static const struct position street_north[] = {
    { 104, 76, 20 }, { 150, 76, 20 }, { 150, 150, 20 }, { 104, 150, 20 }, { 104, 104, 20 } };
static const struct position meadow_west[] = {
    { 0, 0, 18 }, { 36, 0, 20 }, { 36, 36, 20 }, { 36, 104, 20 }, { 36, 150, 20 }, { 0, 150, 18 } };
static const struct position path_south[] = { { 36, 0, 20 }, { 104, 0, 20 }, { 104, 36, 20 }, { 36, 36, 20 } };
static const struct position meadow_north[] = { { 36, 104, 20 }, { 104, 104, 20 }, { 104, 150, 20 }, { 36, 150, 20 } };
static const struct position roof[] = { { 44, 84, 23 }, { 60, 84, 23 }, { 60, 96, 23 }, { 44, 96, 23 } };

static const uint16_t wall_link[] = { 0 }, roof_link[] = { 1 };
static const struct polygon yard_polygons[] = {
    { yard_south, NULL, 4, 0, FLAT, 0, wall_link, 1 },
    { yard_middle, NULL, 5, 0, FLAT, 0, NULL, 0 },
    { yard_north_west, NULL, 4, 0, FLAT, 0, roof_link, 1 },
    { yard_north_east, NULL, 4, 0, FLAT, 0, NULL, 0 },
    { gate, NULL, 4, YNV_FLAGS0_FOOTPATH, FLAT, 0, NULL, 0 },
    { street_south, NULL, 5, 0, STREET, 0, NULL, 0 },
    { street_middle, NULL, 4, 0, STREET, 0, NULL, 0 },
    { street_north, NULL, 5, 0, STREET, 0, NULL, 0 },
    { meadow_west, NULL, 6, 0, 0, 0, wall_link, 1 },
    { path_south, NULL, 4, YNV_FLAGS0_FOOTPATH, FLAT, 0, NULL, 0 },
    { meadow_north, NULL, 4, 0, 0, 0, NULL, 0 },
    { roof, NULL, 4, 0, FLAT, 0, roof_link, 1 },
};
static const struct portal over_the_wall = { 1, 0, { 35, 52, 20 }, { 41, 52, 20 }, 8, 0, YARD };
static const struct portal onto_the_roof = { 1, 128, { 62, 90, 20 }, { 59, 90, 23 }, 2, 11, YARD };

static void put_yard(struct strip *strip)
{
    static const struct position benches[] = { { 46, 44, 20 }, { 94, 44, 20 }, { 126, 110, 20 } };
    const struct border east = { 150, YARD + 1, 3 };
    put_map_cell(strip, YNV_CONTENT_POLYGONS | YNV_CONTENT_PORTALS, 40, 40, 0, 50);
    put_joined(strip, yard_polygons, sizeof yard_polygons / sizeof yard_polygons[0], YARD, east);
    put_portal(strip, &over_the_wall);
    put_portal(strip, &onto_the_roof);
    put_point(strip, 0, 0, benches[0]);
    put_point(strip, 128, 0, benches[1]);
    put_point(strip, 64, 1, benches[2]);
    put_end(strip);
}

/* A beach at x = 9000, where the grid of cells ends. Five pieces of sand from south to north, which lead west to cell
 * 4098. The edge of the third that looks out to sea names area 4100 and a polygon there: that cell lies at the far
 * west, a row further north, and is no neighbour, though it has the next number. */
static void put_sand(struct strip *strip, uint32_t i)
{
    enum { AREA = 4099, LAST = 4, ODD = 2 };
    const struct neighbour south = { AREA, i - 1 }, odd = { 4100, 0 }, north = { AREA, i + 1 }, west = { 4098, i };
    const struct neighbour neighbours[4] = {
        i == 0 ? nobody : south, i == ODD ? odd : nobody, i == LAST ? nobody : north, west };
    struct position sand[4];
    const struct polygon piece = { sand, neighbours, 4, 0, YNV_FLAGS1_CELL_EDGE, 0, NULL, 0 };
    rectangle(sand, 8850, 30 * (float)i, 9000, 30 * (float)i + 30, 4);
    sand[1].z = sand[2].z = 0;
    put_polygon(strip, &piece);
}

static void put_east(struct strip *strip)
{
    put_map_cell(strip, YNV_CONTENT_POLYGONS, 99, 40, -10, 40);
    for (uint32_t i = 0; i < 5; i++)
        put_sand(strip, i);
    put_end(strip);
}

/* The deck of a ferry around its own middle: an aisle between two rows, the bow, and a bridge above it. */
static const struct position port_row[] = { { -12, 1, 1 }, { 8, 1, 1 }, { 8, 4, 1 }, { -12, 4, 1 } };
static const struct position aisle[] = { { -12, -1, 1 }, { 8, -1, 1 }, { 8, 1, 1 }, { -12, 1, 1 } };
static const struct position starboard_row[] = { { -12, -4, 1 }, { 8, -4, 1 }, { 8, -1, 1 }, { -12, -1, 1 } };
static const struct position bow[] = {
    { 8, -4, 1 }, { 11, -4, 1 }, { 12, 0, 1 }, { 11, 4, 1 }, { 8, 4, 1 }, { 8, 1, 1 }, { 8, -1, 1 } };
static const struct position bridge[] = { { 8, -3, 4 }, { 11, -3, 4 }, { 11, 3, 4 }, { 8, 3, 4 } };

static const uint16_t ladder_link[] = { 0 };
static const struct polygon deck[] = {
    { port_row, NULL, 4, 0, FLAT, 0, NULL, 0 },
    { aisle, NULL, 4, 0, FLAT, 0, ladder_link, 1 },
    { starboard_row, NULL, 4, 0, FLAT, 0, NULL, 0 },
    { bow, NULL, 7, 0, FLAT, 0, NULL, 0 },
    { bridge, NULL, 4, 0, FLAT, 0, ladder_link, 1 },
};

static void put_vehicle(struct strip *strip)
{
    static const struct position min = { -12, -4, 0 }, max = { 12, 4, 6 }, helm = { 10, 0, 4 };
    static const struct portal ladder = { 1, 0, { 7, 0, 1 }, { 9, 0, 4 }, 1, 4, YNV_VEHICLE_AREA };
    put_cell(strip, YNV_CONTENT_POLYGONS | YNV_CONTENT_PORTALS | YNV_CONTENT_VEHICLE, YNV_VEHICLE_AREA,
             YNV_VEHICLE_VERSION, min, max);
    put_joined(strip, deck, sizeof deck / sizeof deck[0], YNV_VEHICLE_AREA, no_border);
    put_portal(strip, &ladder);
    put_point(strip, 0, 2, helm);
    put_end(strip);
}

/* A park with forty benches, of which two stand outside the box, and a meadow whose last corner lies beyond it. */
static void put_outside(struct strip *strip)
{
    struct position lawn[4], meadow[4];
    const struct position beyond_east = { 301, 20, 5 }, beyond_north = { 200, 152, 5 };
    struct polygon polygons[2] = {
        { lawn, NULL, 4, 0, YNV_FLAGS1_FLAT_GROUND, 0, NULL, 0 },
        { meadow, NULL, 4, 0, 0, 0, NULL, 0 },
    };
    rectangle(lawn, 150, 0, 225, 150, 5);
    rectangle(meadow, 225, 0, 300, 150, 5);
    meadow[2].x = 310;
    meadow[2].y = 160;
    put_map_cell(strip, YNV_CONTENT_POLYGONS, 41, 40, 0, 20);
    put_joined(strip, polygons, 2, 4041, no_border);
    for (int i = 0; i < 40; i++) {
        const struct position bench = { 160 + 13 * (float)(i % 10), 15 + 36 * (float)(i / 10), 5 };
        put_point(strip, (uint8_t)(6 * i), 0, i == 13 ? beyond_east : i == 26 ? beyond_north : bench);
    }
    put_end(strip);
}

/* Ten terraces of 100 by 5 pieces, each 2 higher than the one south of it. Between two stands a wall, across which
 * nobody lies, with a ladder in its middle. */
enum { FIELD = 4140, COLUMNS = 100, ROWS = 50, TERRACE = 5, LADDERS_AT = 50 };

/* The neighbours of a piece: south, east, north and west, as its edges go. */
static void find_neighbours(uint32_t row, uint32_t column, struct neighbour neighbours[4])
{
    const uint32_t number = row * COLUMNS + column;
    const uint32_t beside[4] = { number - COLUMNS, number + 1, number + COLUMNS, number - 1 };
    const int walled[4] = { row % TERRACE == 0, column == COLUMNS - 1, row % TERRACE == TERRACE - 1, column == 0 };
    for (int i = 0; i < 4; i++) {
        neighbours[i].area = walled[i] ? YNV_NONE : FIELD;
        neighbours[i].poly = walled[i] ? YNV_NONE : beside[i];
    }
}

static void put_piece(struct strip *strip, uint32_t row, uint32_t column)
{
    const uint32_t terrace = row / TERRACE;
    const int foot = column == LADDERS_AT && row % TERRACE == TERRACE - 1 && row + 1 < ROWS;
    const int head = column == LADDERS_AT && row % TERRACE == 0 && row > 0;
    const uint16_t link = (uint16_t)(head ? terrace - 1 : terrace);
    const float x = 1.5f * (float)column, y = 150 + 3 * (float)row;
    struct position piece[4];
    struct neighbour neighbours[4];
    const struct polygon polygon = { piece, neighbours, 4, 0, FLAT, 0, &link, foot || head };
    rectangle(piece, x, y, x + 1.5f, y + 3, 2 * (float)terrace);
    find_neighbours(row, column, neighbours);
    put_polygon(strip, &polygon);
}

/* The ladder from a terrace to the next one north. */
static void put_ladder(struct strip *strip, uint16_t terrace)
{
    const float wall = 150 + 3 * TERRACE * (float)(terrace + 1), x = 1.5f * LADDERS_AT + 0.75f, z = 2 * (float)terrace;
    const uint16_t foot = (uint16_t)((terrace * TERRACE + TERRACE - 1) * COLUMNS + LADDERS_AT);
    const struct portal ladder = {
        2, 64, { x, wall - 0.5f, z }, { x, wall + 0.5f, z + 2 }, foot, (uint16_t)(foot + COLUMNS), FIELD };
    put_portal(strip, &ladder);
}

static void put_field(struct strip *strip)
{
    put_map_cell(strip, YNV_CONTENT_POLYGONS | YNV_CONTENT_PORTALS, 40, 41, 0, 40);
    for (uint32_t row = 0; row < ROWS; row++) {
        for (uint32_t column = 0; column < COLUMNS; column++)
            put_piece(strip, row, column);
    }
    for (uint16_t terrace = 0; terrace + 1 < ROWS / TERRACE; terrace++)
        put_ladder(strip, terrace);
    put_end(strip);
}

/* Two faults: polygon 1 has eight links, polygon 2 two vertices. */
static void put_refused(struct strip *strip)
{
    const struct neighbour neighbours[4] = { nobody, nobody, nobody, nobody };
    static const uint16_t links[8] = { 0, 1, 2, 3, 4, 5, 6, 7 };
    struct position ground[3][4];
    put_map_cell(strip, YNV_CONTENT_POLYGONS, 40, 40, 0, 50);
    for (size_t i = 0; i < 3; i++) {
        const struct polygon polygon = { ground[i], neighbours, i == 2 ? 2 : 4, 0, 0, 0, links, i == 1 ? 8 : 0 };
        rectangle(ground[i], 50 * (float)i, 0, 50 * (float)i + 50, 150, 10);
        put_polygon(strip, &polygon);
    }
    put_end(strip);
}

static FILE *begin_file(const char *folder, const char *name, const char *ending)
{
    char path[4096];
    FILE *out = NULL;
    int length = snprintf(path, sizeof path, "%s/%s%s", folder, name, ending);
    if (length >= 0 && (size_t)length < sizeof path)
        out = fopen(path, "wb");
    if (out == NULL)
        trouble("a file of the folder can't be written");
    return out;
}

static void end_file(FILE *out)
{
    int failed = ferror(out);
    if (fclose(out) != 0 || failed)
        trouble("a file of the folder can't be written");
}

static void write_strip(const char *folder, const char *name, const struct strip *strip)
{
    FILE *out = begin_file(folder, name, ".strip");
    for (size_t i = 0; i < strip->length; i++) {
        for (int shift = 0; shift < 32; shift += 8)
            fputc((int)(strip->at[i] >> shift & 0xFF), out);
    }
    end_file(out);
}

static void write_pages(const char *folder, const char *name, struct bytes pages)
{
    FILE *out = begin_file(folder, name, ".pages");
    fwrite(pages.at, 1, pages.length, out);
    end_file(out);
}

/* Opens what was saved and prints what it holds, and how many points saving dropped and coordinates it pushed. */
static void print_saved(struct bytes pages, uint64_t stored, uint64_t dropped, uint64_t pushed)
{
    uint64_t answer[8];
    struct strip again = open_saved(pages, answer);
    if (answer[3] != stored)
        trouble("the points that were stored must be read");
    printf("%zu bytes: polygons %" PRIu64 " portals %" PRIu64 " points %" PRIu64 " dropped %" PRIu64 " pushed %" PRIu64,
           pages.length, answer[1], answer[2], stored, dropped, pushed);
    if (ynv_count_seams(again.at, again.length, answer) != 0)
        trouble("a strip that was read must be well formed");
    printf(" seams %" PRIu64 "\n", answer[0]);
    free(again.at);
}

/* Makes one sample; where `refused` is 0 it has to be saved and to open, otherwise to be refused with that number. */
static void make(const char *folder, const char *name, void (*put_sample)(struct strip *), uint32_t refused)
{
    struct strip strip = { NULL, 0, 0 };
    struct bytes pages;
    uint64_t answer[8];
    put_sample(&strip);
    write_strip(folder, name, &strip);
    if (save(&strip, &pages, answer) != refused)
        trouble("the library answers something else than expected");
    printf("%s: %zu words, ", name, strip.length);
    if (refused == 0) {
        write_pages(folder, name, pages);
        print_saved(pages, answer[1], answer[2], answer[3]);
    } else {
        print_refusal(stdout, refused, answer[0]);
    }
    free(pages.at);
    free(strip.at);
}

int main(int argc, char **argv)
{
    if (argc != 2)
        trouble("usage: samples FOLDER");
    make(argv[1], "yard", put_yard, 0);
    make(argv[1], "east", put_east, 0);
    make(argv[1], "vehicle", put_vehicle, 0);
    make(argv[1], "outside", put_outside, 0);
    make(argv[1], "field", put_field, 0);
    make(argv[1], "refused", put_refused, YNV_REFUSED_MANY_LINKS_OF_POLYGON);
    return 0;
}
