/* Builds a cell of three polygons from nothing, saves it, opens it and prints it. With a file name it writes the pages
 * there, too. It has two benches, of which one stands outside the box: saving drops that one and says so.
 *
 *     (0, 150) +-----------------+ (150, 150)
 *              | 2, higher up    |
 *      (0, 75) +--------+--------+ (150, 75)
 *              | 0      | 1      |   edge 1 of polygon 1 leads to polygon 7 of the cell to the east
 *       (0, 0) +--------+--------+ (150, 0)
 *                    (75, 0)
 *
 * Status: 0, or 2 where there is trouble. */
#include "cell.h"

enum { CX = 40, CY = 40, AREA = CY * 100 + CX };

static const struct neighbour nobody = { YNV_NONE, YNV_NONE };

static struct neighbour here(uint32_t poly)
{
    struct neighbour across = { AREA, poly };
    return across;
}

/* The box of a map cell: its sides come from the grid, its heights from what is built. */
static void put_map_cell(struct strip *strip, float low, float high)
{
    uint64_t answer[8];
    struct position min, max;
    if (ynv_cell_bounds(CX, CY, answer) != 0)
        trouble("no such cell");
    min.x = ynv_float(answer[0]);
    min.y = ynv_float(answer[1]);
    max.x = ynv_float(answer[2]);
    max.y = ynv_float(answer[3]);
    min.z = low;
    max.z = high;
    put_cell(strip, YNV_CONTENT_POLYGONS | YNV_CONTENT_PORTALS, AREA, YNV_MAP_VERSION, min, max);
}

/* Edge i goes from vertex i to vertex i + 1, and so do the neighbours. */
static void put_three(struct strip *strip)
{
    const struct position west[] = { { 0, 0, 10 }, { 75, 0, 10 }, { 75, 75, 10 }, { 0, 75, 10 } };
    const struct neighbour west_of[] = { nobody, here(1), nobody, nobody };
    const struct position east[] = { { 75, 0, 10 }, { 150, 0, 10 }, { 150, 75, 10 }, { 75, 75, 10 } };
    const struct neighbour east_of[] = { nobody, { AREA + 1, 7 }, nobody, here(0) };
    const struct position higher[] = { { 0, 75, 14 }, { 150, 75, 14 }, { 150, 150, 14 }, { 0, 150, 14 } };
    const struct neighbour higher_of[] = { nobody, nobody, nobody, nobody };
    const uint16_t portal_0[] = { 0 };
    const struct polygon polygons[] = {
        { west, west_of, 4, 0, YNV_FLAGS1_FLAT_GROUND, 0, portal_0, 1 },
        { east, east_of, 4, 0, YNV_FLAGS1_FLAT_GROUND | YNV_FLAGS1_CELL_EDGE, 0, NULL, 0 },
        { higher, higher_of, 4, 0, YNV_FLAGS1_FLAT_GROUND, 0, portal_0, 1 },
    };
    for (size_t i = 0; i < sizeof polygons / sizeof polygons[0]; i++)
        put_polygon(strip, &polygons[i]);
}

static struct strip three_polygons(void)
{
    struct strip strip = { NULL, 0, 0 };
    const struct portal climb = { 1, 0, { 40, 74, 10 }, { 40, 76, 14 }, 0, 2, AREA };
    const struct position bench = { 100, 100, 14 }, beyond = { 151, 100, 14 };
    put_map_cell(&strip, 0, 50);
    put_three(&strip);
    put_portal(&strip, &climb);
    put_point(&strip, 64, 0, bench);
    put_point(&strip, 64, 0, beyond);
    put_end(&strip);
    return strip;
}

/* Three floats at a word of a strip. */
static void print_position(const uint32_t *at)
{
    printf(" (%g, %g, %g)", ynv_float(at[0]), ynv_float(at[1]), ynv_float(at[2]));
}

/* Prints the polygon whose record begins here, and returns how many words the record has. */
static size_t print_polygon(const uint32_t *at, unsigned number)
{
    size_t vertices = at[0] & 0xFFF, edges = at[0] >> 12 & 0xFFF, links = at[0] >> 24 & 0xF;
    const uint32_t *vertex = at + 4 + links, *edge = vertex + 3 * vertices;
    printf("polygon %u: flags %" PRIu32 " %" PRIu32 " %" PRIu32 ", vertices", number, at[1], at[2], at[3]);
    for (size_t i = 0; i < vertices; i++)
        print_position(vertex + 3 * i);
    printf("\n");
    for (size_t i = 0; i < edges; i++) {
        if (edge[6 * i + 1] != YNV_NONE)
            printf("  edge %zu leads to polygon %" PRIu32 " of area %" PRIu32 "\n", i, edge[6 * i + 1], edge[6 * i]);
    }
    for (size_t i = 0; i < links; i++)
        printf("  link %" PRIu32 "\n", at[4 + i]);
    return 4 + links + 3 * vertices + 6 * edges;
}

static void print_portal(const uint32_t *at)
{
    printf("portal: kind %" PRIu32 ", from polygon %" PRIu32 " at", at[0] & 0xFF, at[8] & 0xFFFF);
    print_position(at + 2);
    printf(" to polygon %" PRIu32 " at", at[8] >> 16);
    print_position(at + 5);
    printf("\n");
}

/* Goes through an accepted strip, record by record, by their kinds. */
static void print_strip(const struct strip *strip)
{
    unsigned polygons = 0;
    for (size_t i = 0; YNV_KIND_OF(strip->at[i]) != YNV_KIND_END;) {
        const uint32_t *at = strip->at + i;
        switch (YNV_KIND_OF(at[0])) {
        case YNV_KIND_CELL:
            printf("cell %" PRIu32 ": box from", at[2]);
            print_position(at + 5);
            printf(" to");
            print_position(at + 8);
            printf("\n");
            i += YNV_CELL_WORDS;
            break;
        case YNV_KIND_POLYGON:
            i += print_polygon(at, polygons++);
            break;
        case YNV_KIND_PORTAL:
            print_portal(at);
            i += YNV_PORTAL_WORDS;
            break;
        default:
            printf("point: angle %" PRIu32 ", kind %" PRIu32 ", at", at[0] & 0xFF, at[0] >> 8 & 0xFF);
            print_position(at + 1);
            printf("\n");
            i += YNV_POINT_WORDS;
        }
    }
}

/* The cell for a modelling program. */
static void print_drawing(const struct strip *strip)
{
    uint64_t answer[8];
    size_t room = ynv_obj_bytes(strip->length);
    uint8_t *text = malloc(room);
    if (text == NULL)
        trouble("there is no memory");
    if (ynv_export_obj(strip->at, strip->length, text, room, answer) != 0)
        trouble("the cell has no drawing");
    printf("drawing: %" PRIu64 " bytes\n%.*s", answer[0], (int)answer[0], (const char *)text);
    free(text);
}

/* Where a walker gets to from a polygon: its neighbours over edges, and what portals lead to. */
static void print_walk(const struct strip *strip, size_t polygons, uint64_t start)
{
    uint64_t answer[8];
    uint8_t *marks = malloc(polygons);
    if (marks == NULL)
        trouble("there is no memory");
    if (ynv_reachable(strip->at, strip->length, start, marks, polygons, answer) != 0)
        trouble("there is no such polygon");
    printf("from polygon %" PRIu64 ": %" PRIu64 " of %zu polygons:", start, answer[0], polygons);
    for (size_t i = 0; i < polygons; i++) {
        if (marks[i] == 1)
            printf(" %zu", i);
    }
    printf("\n");
    free(marks);
}

static void write_file(const char *name, struct bytes pages)
{
    FILE *out = fopen(name, "wb");
    int written = out != NULL && fwrite(pages.at, 1, pages.length, out) == pages.length;
    if (out == NULL || fclose(out) != 0 || !written)
        trouble("the file can't be written");
}

int main(int argc, char **argv)
{
    uint64_t answer[8];
    struct bytes pages;
    struct strip strip = three_polygons(), again;
    uint32_t number = save(&strip, &pages, answer);
    if (number != 0) {
        print_refusal(stderr, number, answer[0]);
        return 2;
    }
    printf("saved: %zu words of strip as %zu bytes of pages\n", strip.length, pages.length);
    printf("points: %" PRIu64 " stored, %" PRIu64 " outside the box and dropped\n", answer[1], answer[2]);
    printf("coordinates pushed to the border: %" PRIu64 "\n", answer[3]);
    again = open_saved(pages, answer);
    print_strip(&again);
    print_walk(&again, (size_t)answer[1], 0);
    print_walk(&again, (size_t)answer[1], 2);
    print_drawing(&again);
    if (argc > 1)
        write_file(argv[1], pages);
    free(strip.at);
    free(again.at);
    free(pages.at);
    return 0;
}
