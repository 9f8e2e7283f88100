/* Which recipe is at the valve: the mixer's records, read from standard input, go into a window as they would minute by minute; then the
 * window is asked. This is the program behind ./valve, and an example of the two calls over a window.
 *
 *     ./build
 *     cc -Iinclude examples/valve.c target/staticlib/libpnl.a -o target/valve
 *     target/valve 2200 < examples/mixer.records
 *
 * Status: 0 with an answer, 1 with a refusal, 2 where a word is wrong, the records cannot be read or the answer cannot be written.
 */
#include "lines.h"

static struct pnl_valve valve;

/* A record goes into the window. */
static int32_t take_record(uint32_t recipe, uint32_t amount)
{
    if (recipe > 65535)
        return NO_LINE;
    return pnl_record_arrives(&valve, (uint16_t)recipe, amount);
}

static struct text records = {
    "valve", "records", "a record is a recipe (0 to 65535) and the ml passed, in digits: '7 1200'", take_record, 0
};

int main(int argc, char **argv)
{
    uint32_t volume;
    int32_t recipe;
    int status;

    if (argc != 2 || !read_word(argv[1], 0, &volume))
        return fail("valve", "the water down to the valve is a number of ml from 0 to 4294967295, in digits", "");
    status = take_lines(&records);
    if (status != 0)
        return status;
    recipe = pnl_recipe_at(&valve, volume);
    if (recipe < 0) {
        fprintf(stderr, "valve: refusal %" PRId32 ": %s\n", -recipe, pnl_refusal_text(recipe));
        return 1;
    }
    if (recipe == PNL_VALVE_OLDER)
        printf("older than the window\n");
    else
        printf("recipe %" PRId32 "\n", recipe);
    if (fflush(stdout) != 0)
        return fail("valve", "cannot write the answer: ", strerror(errno));
    return 0;
}
