/* One question to the register of a list: which coupling wears a tag, and how far it is from the ends of its run; the same of a coupling's
 * number; how far two fittings are from each other; or how many tags a pipe would re-hang. The list is read from standard input. This is the
 * program behind ./ask, and an example of find, distance and quote.
 *
 *     ./build
 *     cc -Iinclude examples/ask.c target/staticlib/libpnl.a -o target/ask
 *     target/ask distance 0 5 < examples/house.pnl
 *     target/ask quote 0 5 1200 < examples/house.pnl
 *
 * Status: 0 with an answer, 1 with a refusal, 2 where a word is wrong, the list cannot be read or the answer cannot be written.
 */
#include <errno.h>
#include <inttypes.h>
#include <stdio.h>
#include <stdlib.h>
#include <string.h>

#include "pnl.h"

/* A list is as long as for the printing program; the calls themselves take any length. */
#define MOST 65536

static uint8_t list[MOST + 1];
static uint8_t answer[PNL_SHEET_MOST];

static int fail(const char *words, const char *more)
{
    fprintf(stderr, "ask: %s%s\n", words, more);
    return 2;
}

static int refused(const char *what, int32_t refusal)
{
    fprintf(stderr, "ask: %s: refusal %" PRId32 ": %s\n", what, -refusal, pnl_refusal_text(refusal));
    return 1;
}

/* A number of 32 bits in digits alone; 0 if the word is another. */
static int read_number(const char *word, uint32_t *number)
{
    uint64_t value = 0;
    const char *digit = word;

    for (; *digit >= '0' && *digit <= '9' && value <= UINT32_MAX; digit++)
        value = 10 * value + (uint64_t)(*digit - '0');
    *number = (uint32_t)value;
    return digit != word && *digit == '\0' && value <= UINT32_MAX;
}

/* A run or ring, the coupling, and the lengths from there. */
static void print_found(void)
{
    uint32_t run = pnl_number(answer, 0), coupling = pnl_number(answer, 1);
    uint32_t low = pnl_number(answer, 2), high = pnl_number(answer, 3);

    if (low == 0) /* to an end of a run it is 1 mm or more */
        printf("fitting %" PRIu32 " in ring %" PRIu32 " of %" PRIu32 " mm\n", coupling, run, high);
    else
        printf("fitting %" PRIu32 " on run %" PRIu32 ": %" PRIu32 " mm to the low end, %" PRIu32 " mm to the high end\n",
               coupling, run, low, high);
}

/* What a pipe would do, and its cost. */
static void print_quote(void)
{
    static const char *const cases[] = {
        [PNL_CASE_NEW_RUN] = "a new run",
        [PNL_CASE_EXTENDS] = "extends a run",
        [PNL_CASE_MERGES] = "merges two runs",
        [PNL_CASE_SPLITS_AND_EXTENDS] = "splits a run or ring, and extends a run",
        [PNL_CASE_SPLITS] = "splits a run or ring",
        [PNL_CASE_SPLITS_TWICE] = "splits runs or rings at both ends",
        [PNL_CASE_RING] = "closes a ring",
    };
    uint32_t tags = pnl_number(answer, 1);

    printf("%s: ", cases[pnl_number(answer, 0)]);
    if (tags == 0)
        printf("no tag is re-hung\n");
    else
        printf("%" PRIu32 " tag%s re-hung\n", tags, tags == 1 ? " is" : "s are");
}

/* The answer of a call that was not refused, in words. */
static void print_answer(char question)
{
    uint32_t first = pnl_number(answer, 0);

    if (question == 'q')
        print_quote();
    else if (question != 'd')
        print_found();
    else if (first == PNL_NOT_JOINED)
        printf("not joined\n");
    else
        printf("%" PRIu32 " mm\n", first);
}

static int32_t call(char question, size_t size, const uint32_t *numbers)
{
    if (question == 'f')
        return pnl_find(list, size, numbers[0], answer, sizeof answer);
    if (question == 'a')
        return pnl_find_at(list, size, numbers[0], answer, sizeof answer);
    if (question == 'd')
        return pnl_distance(list, size, numbers[0], numbers[1], answer, sizeof answer);
    return pnl_quote(list, size, numbers[0], numbers[1], numbers[2], numbers[3], answer, sizeof answer);
}

static int ask(char question, const uint32_t *numbers)
{
    size_t size = fread(list, 1, sizeof list, stdin);
    int32_t returned;

    /* A read that fails is not the end of the list. */
    if (ferror(stdin))
        return fail("cannot read the list: ", strerror(errno));
    if (size > MOST)
        return fail("too long: a list has at most 65,536 bytes", "");
    /* The sheet has no refusal of its own here, so one is the list's. */
    returned = pnl_sheet(list, size, answer, sizeof answer);
    if (returned < 0)
        return refused("the list stops, and ./run names the record", returned);
    returned = call(question, size, numbers);
    if (returned < 0)
        return refused(question == 'q' ? "such a pipe does not land" : "no answer", returned);
    print_answer(question);
    if (fflush(stdout) != 0)
        return fail("cannot write the answer: ", strerror(errno));
    return 0;
}

int main(int argc, char **argv)
{
    /* each with the fewest and the most numbers that it takes; a volume that is left out is 0, not known */
    static const struct { const char *word; int least, most; } questions[] = {
        { "find", 1, 1 }, { "at", 1, 1 }, { "distance", 2, 2 }, { "quote", 3, 4 }
    };
    uint32_t numbers[4] = { 0, 0, 0, 0 };
    int i;

    for (i = 0; i < 4 && (argc < 2 || strcmp(argv[1], questions[i].word) != 0); i++)
        ;
    if (i == 4 || argc - 2 < questions[i].least || argc - 2 > questions[i].most)
        return fail("a question is 'find TAG', 'at FITTING', 'distance FITTING FITTING' or 'quote FITTING FITTING LENGTH [VOLUME]'", "");
    for (i = 2; i < argc; i++)
        if (!read_number(argv[i], &numbers[i - 2]))
            return fail("each is a number from 0 to 4294967295, in digits, not ", argv[i]);
    return ask(argv[1][0], numbers);
}
