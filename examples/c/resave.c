/* Reads a cell's system pages from a file, prints what the cell holds, writes it again and compares the bytes.
 * Status: 0 the same bytes, 1 other bytes, 2 a refusal or trouble. Other bytes are no fault: docs/SAVING.md says why
 * the second saving of a cell can write some, and the third none. */
#include <inttypes.h>
#include <stdio.h>
#include <stdlib.h>
#include <string.h>

#include "ynv.h"

struct bytes {
    uint8_t *at;
    size_t length;
};

struct words {
    uint32_t *at;
    size_t length;
};

static void trouble(const char *what)
{
    fprintf(stderr, "resave: %s\n", what);
    exit(2);
}

/* Room for `count` elements, for one at least, since calloc may answer NULL for none. */
static void *room(size_t count, size_t size)
{
    void *at = calloc(count ? count : 1, size);
    if (at == NULL)
        trouble("out of memory");
    return at;
}

/* Ends the program where a call refused: its number, its place if it names one, and its sentence. */
static void accepted(const char *call, uint32_t number, const uint64_t answer[8])
{
    if (number == 0)
        return;
    fprintf(stderr, "resave: %s refused %" PRIu32, call, number);
    if (ynv_place(number)[0] != '\0')
        fprintf(stderr, " at %s %" PRIu64, ynv_place(number), answer[0]);
    fprintf(stderr, ": %s\n", ynv_sentence(number));
    exit(2);
}

static struct bytes read_file(const char *name)
{
    struct bytes file = { NULL, 0 };
    FILE *in = fopen(name, "rb");
    long length = -1;
    if (in == NULL || fseek(in, 0, SEEK_END) != 0 || (length = ftell(in)) < 0 || fseek(in, 0, SEEK_SET) != 0)
        trouble("the file can't be read");
    file.length = (size_t)length;
    file.at = room(file.length, 1);
    if (fread(file.at, 1, file.length, in) != file.length)
        trouble("the file can't be read");
    fclose(in);
    return file;
}

/* Reads a system section, with no graphics, into a new strip of so many words. */
static uint32_t parse(struct bytes system, size_t words, struct words *strip, uint64_t answer[8])
{
    strip->length = words;
    strip->at = room(words, sizeof *strip->at);
    return ynv_parse(system.at, system.length, NULL, 0, strip->at, strip->length, answer);
}

static struct words read_cell(struct bytes system)
{
    uint64_t answer[8];
    struct words strip;
    uint32_t number = parse(system, ynv_strip_words(system.length, 0), &strip, answer);
    if (number == YNV_REFUSED_TOO_SHORT) {
        /* Pages from elsewhere may hold a cell with more words than they have bytes. */
        free(strip.at);
        number = parse(system, YNV_MOST_WORDS, &strip, answer);
    }
    accepted("ynv_parse", number, answer);
    printf("read %zu bytes: words %" PRIu64 " polys %" PRIu64 " portals %" PRIu64 " points %" PRIu64 " sectors %" PRIu64
           "\n", system.length, answer[0], answer[1], answer[2], answer[3], answer[4]);
    strip.length = (size_t)answer[0];
    return strip;
}

/* Writes a strip. Answer: as ynv_serialize(). */
static struct bytes write_cell(struct words strip, uint64_t answer[8])
{
    struct words work = { NULL, ynv_work_words(strip.length) };
    struct bytes pages = { NULL, ynv_pages_bytes(strip.length) };
    work.at = room(work.length, sizeof *work.at);
    pages.at = room(pages.length, 1);
    accepted("ynv_serialize",
             ynv_serialize(strip.at, strip.length, work.at, work.length, pages.at, pages.length, answer), answer);
    free(work.at);
    pages.length = (size_t)answer[0];
    return pages;
}

static void print_seams(struct words strip)
{
    uint64_t answer[8];
    accepted("ynv_count_seams", ynv_count_seams(strip.at, strip.length, answer), answer);
    printf("seams %" PRIu64 "\n", answer[0]);
}

/* The map cell of a spot, and where it lies. */
static void print_grid_cell(float x, float y)
{
    uint64_t cell[8], answer[8];
    accepted("ynv_cell_for_position", ynv_cell_for_position(x, y, cell), cell);
    accepted("ynv_cell_bounds", ynv_cell_bounds((uint32_t)cell[0], (uint32_t)cell[1], answer), answer);
    printf("(%g, %g) lies in cell (%" PRIu64 ", %" PRIu64 "), from (%g, %g) to (%g, %g)\n", x, y, cell[0], cell[1],
           ynv_float(answer[0]), ynv_float(answer[1]), ynv_float(answer[2]), ynv_float(answer[3]));
}

/* The polygon under the middle of the cell's box, whose min and size are words 5 and 11 of the strip and on. */
static void print_middle(struct words strip)
{
    uint64_t spot[8], answer[8];
    float x = ynv_float(strip.at[5]) + ynv_float(strip.at[11]) / 2;
    float y = ynv_float(strip.at[6]) + ynv_float(strip.at[12]) / 2;
    accepted("ynv_spot_for_position", ynv_spot_for_position(strip.at, strip.length, x, y, spot), spot);
    accepted("ynv_pick_poly",
             ynv_pick_poly(strip.at, strip.length, (uint16_t)spot[0], (uint16_t)spot[1], answer), answer);
    if (answer[0] == 1)
        printf("under (%g, %g): polygon %" PRIu64 "\n", x, y, answer[1]);
    else
        printf("under (%g, %g): no polygon\n", x, y);
}

int main(int argc, char **argv)
{
    if (argc != 2)
        trouble("usage: resave PAGES");
    struct bytes before = read_file(argv[1]);
    struct words strip = read_cell(before);
    print_seams(strip);
    print_middle(strip);
    print_grid_cell(-1500.0f, 2000.0f);
    uint64_t answer[8];
    struct bytes after = write_cell(strip, answer);
    int same = before.length == after.length && memcmp(before.at, after.at, after.length) == 0;
    printf("written again: %zu bytes, %s\n", after.length, same ? "the same" : "other ones");
    printf("points stored %" PRIu64 " dropped %" PRIu64 ", coordinates pushed %" PRIu64 "\n", answer[1], answer[2], answer[3]);
    free(before.at);
    free(strip.at);
    free(after.at);
    return same ? 0 : 1;
}
