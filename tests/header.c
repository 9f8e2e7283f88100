/* Each constant of include/pnl.h, compared with what the library answers, and its two functions. Prints what differs, and returns 1 if
 * anything does. */
#include <inttypes.h>
#include <stdio.h>
#include <string.h>

#include "pnl.h"

#define HEADER "PNL\1\0"
#define HEADER2 "PNL\2\0"
/* From fitting 0 to fitting 1, of 1 mm. */
#define PIPE "P\0\0\1\0\1\0\0\0"
/* The same with the largest volume, and with one more. */
#define PIPE2 PIPE "\100\102\17\0"
#define PIPE2_ABOVE PIPE "\101\102\17\0"
/* Pipes 0-1 and 1-2, so that fitting 1 is a coupling; nothing is joined to fitting 3. */
#define HOUSE HEADER "FFFF" PIPE "P\1\0\2\0\1\0\0\0"
/* And a pipe 2-3, so that fitting 2 is one too; or a pipe 2-0, which closes a ring. */
#define LINE HOUSE "P\2\0\3\0\1\0\0\0"
#define RING HOUSE "P\2\0\0\0\1\0\0\0"

/* The arguments that a list given as a string, and an answer with room enough, are to a call. */
#define LIST(text) (const uint8_t *)(text), sizeof (text) - 1
#define ROOM answer, sizeof answer
#define COMPARE(constant, answered) compare(#constant, constant, answered)
/* A refusal has words of its own. */
#define REFUSED(constant, answered) (COMPARE(constant, answered), compare_text(#constant, constant))

static uint8_t answer[PNL_SHEET_MOST];
static uint8_t full[5 + 4 + 9 * 4097];
static int differ = 0;

static void compare(const char *name, int64_t constant, int64_t answered)
{
    if (constant == answered)
        return;
    printf("%s is %" PRId64 " in pnl.h, and the library answers %" PRId64 "\n", name, constant, answered);
    differ = 1;
}

static void compare_text(const char *name, int32_t refusal)
{
    static const char *seen[24];
    static size_t count = 0;
    const char *text = pnl_refusal_text(refusal);
    size_t i;

    for (i = 0; i < count && strcmp(seen[i], text) != 0; i++)
        ;
    if (i == count && count < 24 && strstr(text, "refusal") == NULL) {
        seen[count++] = text;
        return;
    }
    printf("%s has no words of its own: %s\n", name, text);
    differ = 1;
}

/* The sheet of so many fittings and so many pipes, all from fitting 0 to fittings 1, 2 and 3 in turn: each pipe is a run of its own. */
static int32_t full_sheet(size_t fittings, size_t pipes)
{
    size_t i, at = 5 + fittings;

    memcpy(full, HEADER, 5);
    memset(full + 5, 'F', fittings);
    for (i = 0; i < pipes; i++, at += 9) {
        memcpy(full + at, PIPE, 9);
        full[at + 3] = (uint8_t)(1 + i % 3);
    }
    return pnl_sheet(full, at, ROOM);
}

static void compare_refusals(void)
{
    REFUSED(PNL_REFUSED_NO_MARK, pnl_sheet(LIST("PN"), ROOM));
    REFUSED(PNL_REFUSED_VERSION, pnl_sheet(LIST("PNL\3\0"), ROOM));
    REFUSED(PNL_REFUSED_CUT, pnl_sheet(LIST("PNL\1"), ROOM));
    REFUSED(PNL_REFUSED_UNKNOWN_KIND, pnl_sheet(LIST(HEADER "G"), ROOM));
    REFUSED(PNL_REFUSED_NOT_LANDED, pnl_sheet(LIST(HEADER "F" PIPE), ROOM));
    REFUSED(PNL_REFUSED_SAME_FITTING, pnl_sheet(LIST(HEADER "F" "P\0\0\0\0\1\0\0\0"), ROOM));
    REFUSED(PNL_REFUSED_LENGTH, pnl_sheet(LIST(HEADER "FF" "P\0\0\1\0\0\0\0\0"), ROOM));
    REFUSED(PNL_REFUSED_VOLUME, pnl_sheet(LIST(HEADER2 "FF" PIPE2_ABOVE), ROOM));
    COMPARE(PNL_REFUSED_CUT, pnl_sheet(LIST(HEADER2 "FF" PIPE), ROOM));
    REFUSED(PNL_REFUSED_TOO_MANY_FITTINGS, full_sheet(4097, 0));
    REFUSED(PNL_REFUSED_TOO_MANY_PIPES, full_sheet(4, 4097));
    REFUSED(PNL_REFUSED_NO_COUPLING, pnl_find(LIST(HOUSE), 0, ROOM));
    REFUSED(PNL_REFUSED_SHORT_ANSWER, pnl_sheet(LIST(HOUSE), answer, 0));
}

static void compare_answers(void)
{
    COMPARE(PNL_SHEET_ROW, pnl_sheet(LIST(HOUSE), ROOM));
    COMPARE(PNL_SHEET_MOST, full_sheet(4, 4096));
    compare("the volume of a list of version 1", 0, pnl_number(answer, 5));
    COMPARE(PNL_SHEET_ROW, pnl_sheet(LIST(HEADER2 "FF" PIPE2), ROOM));
    compare("the volume of a list of version 2", 1000000, pnl_number(answer, 5));
    COMPARE(PNL_FIND_SIZE, pnl_find(LIST(HOUSE), 8192, ROOM));
    COMPARE(PNL_FIND_SIZE, pnl_find_at(LIST(HOUSE), 1, ROOM));
    COMPARE(PNL_DISTANCE_SIZE, pnl_distance(LIST(HOUSE), 0, 3, ROOM));
    COMPARE(PNL_NOT_JOINED, answer[0] | (int64_t)answer[1] << 8 | (int64_t)answer[2] << 16 | (int64_t)answer[3] << 24);
}

/* The case of a pipe of 1 mm, or what is returned where that is no answer of two numbers. */
static int64_t case_of(const uint8_t *list, size_t list_len, uint32_t first, uint32_t second)
{
    int32_t returned = pnl_quote(list, list_len, first, second, 1, 0, ROOM);

    return returned == PNL_QUOTE_SIZE ? (int64_t)pnl_number(answer, 0) : returned;
}

static void compare_quotes(void)
{
    COMPARE(PNL_QUOTE_SIZE, pnl_quote(LIST(HOUSE), 0, 3, 1, 0, answer, PNL_QUOTE_SIZE));
    COMPARE(PNL_CASE_NEW_RUN, case_of(LIST(HEADER "FF"), 0, 1));
    COMPARE(PNL_CASE_EXTENDS, case_of(LIST(HOUSE), 0, 3));
    COMPARE(PNL_CASE_MERGES, case_of(LIST(HEADER "FFFF" PIPE "P\2\0\3\0\1\0\0\0"), 1, 2));
    COMPARE(PNL_CASE_SPLITS_AND_EXTENDS, case_of(LIST(HOUSE), 1, 2));
    COMPARE(PNL_CASE_SPLITS, case_of(LIST(HOUSE), 1, 3));
    compare("the tags re-hung by a split", 0, pnl_number(answer, 1));
    COMPARE(PNL_CASE_SPLITS_TWICE, case_of(LIST(LINE), 1, 2));
    COMPARE(PNL_CASE_RING, case_of(LIST(HOUSE), 2, 0));
    COMPARE(PNL_CASE_SPLITS, case_of(LIST(RING), 3, 0));
    compare("the tags re-hung by a tap", 2, pnl_number(answer, 1));
    COMPARE(PNL_REFUSED_NO_MARK, pnl_quote(LIST("PN"), 4, 4, 0, 1000001, answer, 0));
    COMPARE(PNL_REFUSED_NOT_LANDED, pnl_quote(LIST(HOUSE), 4, 4, 0, 1000001, answer, 0));
    COMPARE(PNL_REFUSED_NOT_LANDED, pnl_quote(LIST(HOUSE), 0, 65537, 0, 1000001, answer, 0));
    COMPARE(PNL_REFUSED_SAME_FITTING, pnl_quote(LIST(HOUSE), 3, 3, 0, 1000001, answer, 0));
    COMPARE(PNL_REFUSED_LENGTH, pnl_quote(LIST(HOUSE), 0, 3, 100001, 1000001, answer, 0));
    COMPARE(PNL_REFUSED_VOLUME, pnl_quote(LIST(HOUSE), 0, 3, 100000, 1000001, answer, 0));
    COMPARE(PNL_REFUSED_SHORT_ANSWER, pnl_quote(LIST(HOUSE), 0, 3, 100000, 1000000, answer, PNL_QUOTE_SIZE - 1));
    COMPARE(PNL_SHEET_MOST, full_sheet(4, 4096));
    COMPARE(PNL_REFUSED_TOO_MANY_PIPES, pnl_quote(full, sizeof full - 9, 0, 1, 1, 0, answer, 0));
}

static void compare_valve(void)
{
    static struct pnl_valve valve;

    COMPARE(PNL_VALVE_OLDER, pnl_recipe_at(&valve, 0));
    compare("a record of PNL_VALVE_AMOUNT_MOST", 0, pnl_record_arrives(&valve, 65535, PNL_VALVE_AMOUNT_MOST));
    compare("its last ml", 65535, pnl_recipe_at(&valve, PNL_VALVE_AMOUNT_MOST - 1));
    COMPARE(PNL_VALVE_OLDER, pnl_recipe_at(&valve, PNL_VALVE_AMOUNT_MOST));
    REFUSED(PNL_REFUSED_AMOUNT, pnl_record_arrives(&valve, 1, PNL_VALVE_AMOUNT_MOST + 1));
    REFUSED(PNL_REFUSED_WRONG_SIZE, pnl_valve_recipe(valve.recipes, PNL_VALVE_MINUTES - 1, valve.amounts, PNL_VALVE_MINUTES, 1, 0, 0));
    COMPARE(PNL_REFUSED_WRONG_SIZE, pnl_valve_arrive(NULL, 0, NULL, 0, &valve.next, &valve.sum, 1, 1));
    valve.sum++;
    REFUSED(PNL_REFUSED_WINDOW, pnl_record_arrives(&valve, 1, PNL_VALVE_AMOUNT_MOST + 1));
}

static void compare_plan(void)
{
    static const struct pnl_window two[] = { { 60, 120 }, { 200, PNL_PLAN_WEEK } };
    static const uint16_t odd[] = { 60, 120, 200 };
    static const uint16_t many[2 * PNL_PLAN_WINDOWS + 2];

    compare("the last minute of PNL_PLAN_WEEK", PNL_PLAN_WEEK - 1, pnl_plan_windows(two, 2, 1, PNL_PLAN_FLOW_MOST, PNL_PLAN_WEEK - 1));
    compare("a minute of the next week", PNL_PLAN_WEEK + 60, pnl_plan_windows(two, 2, 2, 1, PNL_PLAN_WEEK - 1));
    COMPARE(PNL_PLAN_NONE, pnl_plan_windows(two, 2, UINT32_MAX, 1, 0));
    COMPARE(PNL_PLAN_NONE, pnl_plan_windows(NULL, 0, 1, 1, 0));
    COMPARE(PNL_PLAN_UNKNOWN, pnl_plan(NULL, 0, 0, 1, 0));
    REFUSED(PNL_REFUSED_PLAN_BOUNDS, pnl_plan_windows(two, 2, 0, PNL_PLAN_FLOW_MOST + 1, 0));
    COMPARE(PNL_REFUSED_PLAN_BOUNDS, pnl_plan_windows(two, 2, 1, 1, PNL_PLAN_WEEK));
    COMPARE(PNL_REFUSED_PLAN_BOUNDS, pnl_plan(many, 2 * PNL_PLAN_WINDOWS + 2, 1, 1, 0));
    COMPARE(PNL_REFUSED_PLAN_WINDOWS, pnl_plan(many, 2 * PNL_PLAN_WINDOWS, 1, 1, 0));
    REFUSED(PNL_REFUSED_PLAN_WINDOWS, pnl_plan(odd, 3, 0, 1, 0));
}

static void compare_functions(void)
{
    static const uint8_t bytes[] = { 0xFF, 0, 0, 0, 1, 2, 3, 0xF4 };

    compare("pnl_number", (int64_t)0xF4030201, pnl_number(bytes, 1));
    compare("pnl_number", 255, pnl_number(bytes, 0));
    if (strcmp(pnl_refusal_text(0), "no refusal") != 0 || strcmp(pnl_refusal_text(PNL_SHEET_MOST), "no refusal") != 0)
        compare("pnl_refusal_text of an answer", 0, 1);
    if (strcmp(pnl_refusal_text(-10), "unknown refusal") != 0 || strcmp(pnl_refusal_text(INT32_MIN), "unknown refusal") != 0)
        compare("pnl_refusal_text of another number", 0, 1);
}

int main(void)
{
    compare_refusals();
    compare_answers();
    compare_quotes();
    compare_valve();
    compare_plan();
    compare_functions();
    return differ;
}
