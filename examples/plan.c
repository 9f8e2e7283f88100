/* When a change of recipe can go through: a compartment's windows, read from standard input, and the volume, the flow and the minute of the
 * command line. This is the program behind ./plan, and an example of the call that plans.
 *
 *     ./build
 *     cc -Iinclude examples/plan.c target/staticlib/libpnl.a -o target/plan
 *     target/plan 5400 300 600 < examples/compartment.windows
 *
 * Status: 0 with an answer, 1 with a refusal, 2 where a word is wrong, the windows cannot be read or the answer cannot be written.
 */
#include "lines.h"

/* One more than there may be: more are refused like it. */
static struct pnl_window windows[PNL_PLAN_WINDOWS + 1];
static size_t count;

/* A number that 16 bits do not hold becomes the largest of them, which is refused too, as a start and as an end. */
static uint16_t narrow(uint32_t minute)
{
    return minute < 65535 ? (uint16_t)minute : 65535;
}

static int32_t take_window(uint32_t start, uint32_t end)
{
    if (count <= PNL_PLAN_WINDOWS) {
        windows[count].start = narrow(start);
        windows[count++].end = narrow(end);
    }
    return 0;
}

static struct text text = {
    "plan", "windows", "a window is the minute at which it starts and the one at which it ends, in digits: '480 600'", take_window, 0
};

/* A minute of the two weeks, with its week, its day and its time of day. */
static void print_minute(int32_t minute)
{
    int32_t of_week = minute % PNL_PLAN_WEEK;

    printf("minute %" PRId32 ": %s week, day %" PRId32 ", %02" PRId32 ":%02" PRId32 "\n", minute,
           minute < PNL_PLAN_WEEK ? "this" : "next", of_week / 1440 + 1, of_week % 1440 / 60, of_week % 60);
}

int main(int argc, char **argv)
{
    uint32_t volume, flow, minute;
    int32_t planned;
    int status;

    if (argc != 4 || !read_word(argv[1], 0, &volume))
        return fail("plan", "the volume is a number of ml from 0 to 4294967295, in digits; 0 is unknown", "");
    /* Larger ones are refused as the largest is. */
    if (!read_word(argv[2], 1, &flow) || !read_word(argv[3], 1, &minute))
        return fail("plan", "the flow, in ml a minute, and the minute of the week are numbers, in digits", "");
    status = take_lines(&text);
    if (status != 0)
        return status;
    planned = pnl_plan_windows(windows, count, volume, flow, minute);
    if (planned < 0) {
        fprintf(stderr, "plan: refusal %" PRId32 ": %s\n", -planned, pnl_refusal_text(planned));
        return 1;
    }
    if (planned == PNL_PLAN_NONE)
        printf("none\n");
    else if (planned == PNL_PLAN_UNKNOWN)
        printf("unknown\n");
    else
        print_minute(planned);
    if (fflush(stdout) != 0)
        return fail("plan", "cannot write the answer: ", strerror(errno));
    return 0;
}
