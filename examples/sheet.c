/* All five calls on a house: the runs of a small house with their volumes, the coupling that wears a tag and a coupling by its number, with
 * their run and how far they are from its ends, how far two fittings are from each other, and what a pipe more would cost.
 *
 *     ./build
 *     cc -Iinclude examples/sheet.c target/staticlib/libpnl.a -o target/sheet && target/sheet
 */
#include <inttypes.h>
#include <stdio.h>

#include "pnl.h"

/* Seven fittings, then pipes 0-1 1000, 1-2 2000, 3-4 500, 4-5 700, 2-3 300, 3-6 900, with volumes; that of 4-5 is not known. */
static const uint8_t house[] = {
    'P', 'N', 'L', 2, 0,
    'F', 'F', 'F', 'F', 'F', 'F', 'F',
    'P', 0, 0, 1, 0, 0xE8, 0x03, 0, 0, 0x3A, 0x01, 0, 0,
    'P', 1, 0, 2, 0, 0xD0, 0x07, 0, 0, 0x74, 0x02, 0, 0,
    'P', 3, 0, 4, 0, 0xF4, 0x01, 0, 0, 0x9D, 0, 0, 0,
    'P', 4, 0, 5, 0, 0xBC, 0x02, 0, 0, 0, 0, 0, 0,
    'P', 2, 0, 3, 0, 0x2C, 0x01, 0, 0, 0x5E, 0, 0, 0,
    'P', 3, 0, 6, 0, 0x84, 0x03, 0, 0, 0x48, 0, 0, 0
};

/* Two fittings and no pipe. */
static const uint8_t apart[] = { 'P', 'N', 'L', 1, 0, 'F', 'F' };

static void print_run(const uint8_t *row)
{
    printf("run %" PRIu32 " from %" PRIu32 " to %" PRIu32 ": %" PRIu32 " couplings, %" PRIu32 " mm, ",
           pnl_number(row, 0), pnl_number(row, 1), pnl_number(row, 2), pnl_number(row, 3), pnl_number(row, 4));
    if (pnl_number(row, 5) == 0)
        printf("volume not known\n");
    else
        printf("%" PRIu32 " ml\n", pnl_number(row, 5));
}

static void print_distance(const uint8_t *list, size_t list_len, uint32_t from, uint32_t to)
{
    uint8_t answer[PNL_DISTANCE_SIZE];
    int32_t size = pnl_distance(list, list_len, from, to, answer, sizeof answer);

    printf("fittings %" PRIu32 " and %" PRIu32 ": ", from, to);
    if (size < 0)
        printf("refusal %" PRId32 "\n", -size);
    else if (pnl_number(answer, 0) == PNL_NOT_JOINED)
        printf("not joined\n");
    else
        printf("%" PRIu32 " mm\n", pnl_number(answer, 0));
}

static void print_found(const char *asked, const uint8_t *found)
{
    printf("%s: fitting %" PRIu32 " on run %" PRIu32 ", %" PRIu32 " mm to the low end, %" PRIu32 " mm to the high end\n", asked,
           pnl_number(found, 1), pnl_number(found, 0), pnl_number(found, 2), pnl_number(found, 3));
}

static int refused(const char *call, int32_t refusal)
{
    fprintf(stderr, "%s: refusal %" PRId32 ": %s\n", call, -refusal, pnl_refusal_text(refusal));
    return 1;
}

int main(void)
{
    static uint8_t answer[PNL_SHEET_MOST];
    int32_t size, at;

    size = pnl_sheet(house, sizeof house, answer, sizeof answer);
    if (size < 0)
        return refused("sheet", size);
    for (at = 0; at < size; at += PNL_SHEET_ROW)
        print_run(answer + at);

    size = pnl_find(house, sizeof house, 8195, answer, sizeof answer);
    if (size < 0)
        return refused("find", size);
    print_found("tag 8195", answer);

    size = pnl_find_at(house, sizeof house, 1, answer, sizeof answer);
    if (size < 0)
        return refused("find_at", size);
    print_found("number 1", answer);

    if (pnl_find(house, sizeof house, 8194, answer, sizeof answer) == PNL_REFUSED_NO_COUPLING)
        printf("tag 8194 is on no coupling\n");

    print_distance(house, sizeof house, 0, 6);
    print_distance(house, sizeof house, 0, 7);
    print_distance(apart, sizeof apart, 0, 1);

    size = pnl_quote(house, sizeof house, 0, 5, 1200, 0, answer, sizeof answer);
    if (size < 0)
        return refused("quote", size);
    printf("pipe 0-5: case %" PRIu32 ", tags re-hung: %" PRIu32 "\n", pnl_number(answer, 0), pnl_number(answer, 1));
    return 0;
}
