/* Requests No. 8 to 14, from document 02. No library with them was at hand: signatures are my own (after CONTRACTS 5); laws.c tries the
 * sentences' consequences on these versions. */
#include "../g.h"
extern uint64_t g_asked, g_skipped;
/* 0, 3 or 44. On 0: the same strip in kind 2 (to be freed), and its kind: 2, 6, or 0 without polygons. */
uint32_t l_scan(const uint32_t *w, size_t n, uint32_t **plain, size_t *plain_n, int *kind, uint64_t *place);
uint32_t l_serialize(const uint32_t *, size_t, uint32_t *, size_t, uint8_t *, size_t, uint64_t[8]);          /* 11, 14 */
uint32_t l_resave(const uint8_t *, size_t, const uint8_t *, size_t, uint32_t *, size_t, uint32_t *, size_t, uint8_t *, size_t, uint64_t[8]); /* 8 */
uint32_t l_count_seams(const uint32_t *, size_t, uint64_t[8]);                                              /* 9, 11 */
uint32_t l_mentioning(const uint32_t *, size_t, uint32_t area, uint64_t[8]);                                /* 10, 11 */
uint32_t l_convert(const uint32_t *, size_t, int to6, uint32_t *, size_t, uint64_t[8]);                     /* 12 */
uint32_t l_compare_seam(const uint32_t *, size_t, const uint32_t *, size_t, uint64_t[8]);                   /* 13 */
uint32_t l_pick_poly(const uint32_t *, size_t, uint16_t, uint16_t, uint64_t[8]);                            /* 1 with 11 */
uint32_t l_export_obj(const uint32_t *, size_t, uint8_t *, size_t, uint64_t[8]);                            /* 3 with 11 */
uint32_t l_reachable(const uint32_t *, size_t, uint64_t, uint8_t *, size_t, uint64_t[8]);                   /* 7 with 11 */
