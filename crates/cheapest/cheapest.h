/* The cheapest cuts of order sheets and page tiles, for programs in C. Link the archive that tools/staticlib makes. Every call is proved;
   what each answers and leaves is told in full in docs/RULES.md. The functions keep nothing between calls, and take memory only through
   malloc. The caller sees to it that each pointer leads to as many bytes as is said, that none is null, and that marks overlap nothing
   else. What an answer does not tell is 0. */
#ifndef CHEAPEST_H
#define CHEAPEST_H

#include <stddef.h>
#include <stdint.h>

#ifdef __cplusplus
extern "C" {
#endif

/* What a mark says of an entry or a pixel: every cheapest selection holds it, none does, or some do and some do not. */
enum { CHEAPEST_IN = 1, CHEAPEST_OUT = 2, CHEAPEST_EITHER = 3 };

/* The number of an answer that is no refusal, and that of want of memory. Any other number is that of a refusal. */
enum { CHEAPEST_FOUND = 0, CHEAPEST_NO_MEMORY = 255 };

typedef struct {
    uint8_t number;
    /* of a refusal: the record of the sheet that it is about, and the place of its first byte */
    size_t record;
    size_t byte;
    /* of a plan: the sheet's entries and needs, what the cheapest selections cost, and the net of the best plans */
    size_t entries;
    size_t needs;
    uint64_t least;
    uint64_t net;
} cheapest_plan_answer;

typedef struct {
    uint8_t number;
    /* the least energy */
    uint64_t energy;
} cheapest_split_answer;

/* Finds the best plans of an order sheet. Writes what they say of each entry to the first bytes of marks, one byte an entry, and leaves
   the others; a refused call leaves all. Refused with 11 to 18 as a load is, and with 26 where there are fewer marks than entries. */
cheapest_plan_answer cheapest_plan(const uint8_t *sheet, size_t sheet_length, uint8_t *marks, size_t marks_length);

/* Finds the least energy of a tile, of lines (in) and tone (out). The costs are four bytes a pixel, row by row: as line, as tone, the
   penalty to the right, the penalty to below. Writes what the selections of that energy say of each pixel to the first bytes of marks,
   one byte a pixel, and leaves the others; a refused call leaves all. Refused with 21, 22 and 24 as a lay is, and with 26 where there
   are fewer marks than pixels. */
cheapest_split_answer cheapest_split(size_t width, size_t height, const uint8_t *costs, size_t costs_length, uint8_t *marks,
                                     size_t marks_length);

#ifdef __cplusplus
}
#endif

#endif
