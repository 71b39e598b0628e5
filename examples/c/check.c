/* Holds include/ynv.h to its words.
 *   check            lends nothing as NULL and by another pointer: the number and the answer must be the same
 *   check sentences  prints number, place and sentence of each refusal; the Makefile holds them to docs/REFUSALS.md
 * Status: 0, or 1 at a difference. */
#include "cell.h"

/* What a call answered: its number, then the eight words, which were all 7 before. */
struct told {
    uint64_t words[9];
};

static struct strip vehicle;
static struct bytes vehicle_pages;

/* Calls that lend nothing somewhere, by number; `bytes` and `words` stand for nothing. */
static struct told ask(int call, uint8_t *bytes, uint32_t *words)
{
    static uint8_t pages[16384];
    static uint32_t work[1024], strip[1024];
    struct told told = { { 7, 7, 7, 7, 7, 7, 7, 7, 7 } };
    const uint32_t *cell = vehicle.at;
    const size_t n = vehicle.length, pages_n = vehicle_pages.length;
    uint64_t *answer = told.words + 1;
    uint32_t number = 0;
    switch (call) {
    case 0: number = ynv_serialize(words, 0, work, 1024, pages, sizeof pages, answer); break;
    case 1: number = ynv_serialize(cell, n, words, 0, pages, sizeof pages, answer); break;
    case 2: number = ynv_serialize(cell, n, work, 1024, bytes, 0, answer); break;
    case 3: number = ynv_serialize(cell, n, words, 0, bytes, 0, answer); break;
    case 4: number = ynv_parse(bytes, 0, vehicle_pages.at, pages_n, strip, 1024, answer); break;
    case 5: number = ynv_parse(vehicle_pages.at, pages_n, bytes, 0, strip, 1024, answer); break;
    case 6: number = ynv_parse(vehicle_pages.at, pages_n, bytes, 0, words, 0, answer); break;
    case 7: number = ynv_parse(bytes, 0, bytes, 0, words, 0, answer); break;
    case 8: number = ynv_count_seams(words, 0, answer); break;
    case 9: number = ynv_spot_for_position(words, 0, 1, 1, answer); break;
    case 10: number = ynv_pick_poly(words, 0, 1, 1, answer); break;
    case 11: number = ynv_export_obj(words, 0, pages, sizeof pages, answer); break;
    case 12: number = ynv_export_obj(cell, n, bytes, 0, answer); break;
    case 13: number = ynv_reachable(words, 0, 0, pages, sizeof pages, answer); break;
    case 14: number = ynv_reachable(cell, n, 0, bytes, 0, answer); break;
    }
    told.words[0] = number;
    return told;
}

static int compare(const char *what, int call)
{
    uint8_t byte = 0;
    uint32_t word = 0;
    struct told null = ask(call, NULL, NULL), other = ask(call, &byte, &word);
    if (memcmp(&null, &other, sizeof null) == 0)
        return 0;
    printf("%s %d: NULL answers %" PRIu64 ", another pointer %" PRIu64 "\n", what, call, null.words[0], other.words[0]);
    return 1;
}

/* Calls 0 to 14, and call 5 with each address of the header turned to the graphics section, which is nothing. */
static int compare_all(void)
{
    static const size_t addresses[] = { 0x70, 0x80, 0x88, 0x118, 0x120, 0x128, 0x130 };
    int differences = 0;
    for (int call = 0; call <= 14; call++)
        differences += compare("call", call);
    for (size_t i = 0; i < sizeof addresses / sizeof addresses[0]; i++) {
        uint8_t *at = vehicle_pages.at + addresses[i], kept[4];
        const uint8_t graphics[4] = { 0, 0, 0, 0x60 };
        memcpy(kept, at, 4);
        memcpy(at, graphics, 4);
        differences += compare("an address in graphics, call", 5);
        memcpy(at, kept, 4);
    }
    return differences;
}

static void print_sentences(void)
{
    for (uint32_t number = 1; number <= 99; number++) {
        if (strcmp(ynv_sentence(number), ynv_sentence(100)) != 0)
            printf("%" PRIu32 "|%s|%s\n", number, ynv_place(number), ynv_sentence(number));
    }
}

int main(int argc, char **argv)
{
    const struct position min = { 0, 0, 0 }, max = { 8, 8, 8 };
    uint64_t answer[8];
    int differences;
    if (argc > 1 && strcmp(argv[1], "sentences") == 0) {
        print_sentences();
        return 0;
    }
    put_cell(&vehicle, YNV_CONTENT_VEHICLE, YNV_VEHICLE_AREA, YNV_VEHICLE_VERSION, min, max);
    put_end(&vehicle);
    if (save(&vehicle, &vehicle_pages, answer) != 0)
        trouble("the empty vehicle must be saved");
    differences = compare_all();
    printf("NULL with length 0: 20 calls, %d differences\n", differences);
    free(vehicle.at);
    free(vehicle_pages.at);
    return differences != 0;
}
