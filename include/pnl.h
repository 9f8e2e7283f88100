/* pnl.h: the feed main register, called from C. Link with libpnl.a (x86-64 Linux); beside it stand pnl.pc and pnl.cmake.
 *
 * Each call on a house takes a list, the bytes of a "PNL" file, grows the register from it in tables on its own stack, and writes its answer
 * to the front of `answer` as little-endian 32-bit numbers.
 *
 *   List       3 bytes "PNL"; a 16-bit version, 1 or 2; then records. A record is the byte 0x46 alone, which lands a fitting; or the byte
 *              0x50, two 16-bit fitting numbers and a 32-bit length in mm, and in version 2 a 32-bit volume in ml, 0 where it is not
 *              known: 9 bytes in version 1, 13 in version 2, which land a pipe. In version 1 no volume is known. Numbers are
 *              little-endian. The first refused record stops the list: the call says why, and not where (./run names the record).
 *   Returns    the count of answer bytes, 0 or more; or a refusal, one of the PNL_REFUSED constants, all below 0.
 *   Answer     bytes of `answer` behind the count stay as they were. Under a refusal all of them do.
 *   Order      the list's refusal comes first: in the header NO_MARK, CUT, VERSION; in a record UNKNOWN_KIND, CUT, then
 *              TOO_MANY_FITTINGS, or NOT_LANDED, SAME_FITTING, LENGTH, VOLUME, TOO_MANY_PIPES. Then come the refusals of the call,
 *              SHORT_ANSWER last. pnl_distance and pnl_quote have some that the list may have too: whose it was, pnl_sheet tells, which
 *              has none of these of its own.
 *   Lengths    list_len and answer_len are in bytes, of any size. A pointer may be null where its length is 0.
 *   Overlap    `list` and `answer` must not overlap.
 *   Threads    nothing is shared or kept between calls, nothing is allocated, no signal is used: any number of threads may call at
 *              once, as long as no thread writes a list or an answer that another call was given.
 *   Stack      a call uses less than 192 KiB. A thread's default stack may be smaller (musl: 128 KiB). The call touches its pages one by
 *              one before it writes to any, so on a stack that is too small it ends at the guard page and harms nothing behind it.
 *   Linking    the archive is position independent: it links into programs and into shared objects alike (README.md has the lines). From
 *              the C library it needs memset alone.
 *
 * Fittings and pipes are numbered from 0 in the order of landing, at most 4,096 of each. A fitting with exactly two pipe ends is a
 * coupling, any other a junction; a run goes from junction to junction through couplings, and its name is its lowest pipe number. Couplings
 * alone that close up are a ring, with no junction: it is listed, named and found like a run, with its lowest fitting as both ends and
 * all its fittings as couplings.
 *
 * A tag is the number on the plate that hangs at a coupling; 0 stands for none, as at a junction. Along a run the tags rise by 1, from
 * the end that is its low end to the other, its high end. Which tag hangs where follows from the order of the list's pipes:
 *
 *   first      a run without couplings that gets one takes the list's next base: 8,192, then 16,384, and so on. Where it grew by one
 *              pipe, the new coupling gets the base, and the end that stayed is the low end. Where the pipe joined two such runs, the
 *              fitting named first gets the base and the second the base plus 1; low is the far end on the first one's side.
 *   growing    a run that grows at its high end hangs its highest tag plus 1, at its low end its lowest minus 1.
 *   joining    of two runs the one with more couplings keeps its tags (on a tie that of the fitting named first); outwards from its joined
 *              end the next numbers, rising at its high end and falling at its low, go to its own joining fitting, to the other's, and
 *              to the other run's couplings in their order. The other run's far end becomes the end on this side. Each coupling that
 *              wore another tag before is re-hung.
 *   closing    a pipe between the two ends of one run makes it a ring: the high end gets the highest tag plus 1, the low end the lowest
 *              minus 1; without couplings, the fitting named first gets the list's next base and the second the base plus 1. Nothing is
 *              re-hung.
 *   splitting  a pipe that lands on a coupling makes it a junction, without a tag; the two pieces keep their tags and sides.
 *   tapping    a pipe that lands on a fitting of a ring makes of the ring a run from that fitting round to itself, with new tags from the
 *              list's next base on: they begin at the neighbour along the lower-numbered of its two ring pipes, which is on the low side,
 *              and rise round. Every other fitting of the ring is re-hung, but for one that the same pipe makes a junction. Where both
 *              its fittings lie on rings, that of the fitting named first takes its base first; where the other starts the tags of a
 *              run, the tap's base comes first.
 *
 * A caller finds a run by a tag that somebody read off its plate in the trench, or by the number of a coupling, which needs no tag. No call
 * gives the tag of a fitting: it is read there, or follows from the list by these rules.
 *
 * The calls on a valve's window, and the one that plans a change, take no list: they stand at the end, with what they are about.
 */
#ifndef PNL_H
#define PNL_H

#include <stddef.h>
#include <stdint.h>

#ifdef __cplusplus
extern "C" {
#endif

/* The version of these calls: it rises with each change of a call, of an answer or of a constant here. Header and archive of one folder
 * belong together; pnl.pc has the same number. (A list has a version of its own, in its header.) */
#define PNL_VERSION 5

/* What a call may return below 0: the refusal's number made negative. */
enum pnl_refusal {
    /* The list: its header. */
    PNL_REFUSED_NO_MARK = -1,           /* shorter than 3 bytes, or other bytes than "PNL" in front */
    PNL_REFUSED_VERSION = -2,           /* the version is neither 1 nor 2 */
    PNL_REFUSED_CUT = -3,               /* the list ends within its header or within a record */
    /* The list: a record. Those of a pipe are also those of pnl_quote, whose pipe is no record yet. */
    PNL_REFUSED_UNKNOWN_KIND = -4,      /* a record that begins with neither 0x46 (fitting) nor 0x50 (pipe) */
    PNL_REFUSED_NOT_LANDED = -5,        /* a pipe, or pnl_distance, names a fitting that was not landed */
    PNL_REFUSED_SAME_FITTING = -6,      /* a pipe from a fitting to itself */
    PNL_REFUSED_LENGTH = -7,            /* a pipe of length 0 or above 100,000 mm */
    PNL_REFUSED_VOLUME = -31,           /* a pipe with a volume above 1,000,000 ml */
    PNL_REFUSED_TOO_MANY_FITTINGS = -22, /* a 4,097th fitting */
    PNL_REFUSED_TOO_MANY_PIPES = -23,   /* a 4,097th pipe */
    /* The valve. */
    PNL_REFUSED_WINDOW = -21,           /* a window that records could not have left */
    PNL_REFUSED_WRONG_SIZE = -25,       /* a table of another size than PNL_VALVE_MINUTES */
    PNL_REFUSED_AMOUNT = -40,           /* a record above 1,000,000 ml */
    /* The planner. */
    PNL_REFUSED_PLAN_BOUNDS = -34,      /* a flow of 0 or above 1,000,000 ml a minute, a minute above 10,079, or more than 32 windows */
    PNL_REFUSED_PLAN_WINDOWS = -35,     /* a window that does not start before its end, ends above 10,080, or starts before the previous one's end */
    /* The call. */
    PNL_REFUSED_NO_COUPLING = -8,       /* a tag that no coupling wears, or a number that is no coupling's */
    PNL_REFUSED_SHORT_ANSWER = -9       /* the answer does not fit in answer_len bytes */
};

/* Sizes of answers, in bytes. */
enum pnl_size {
    PNL_SHEET_ROW = 24,                 /* one run or ring of the sheet */
    PNL_SHEET_MOST = 98304,             /* the largest sheet, 4,096 lines: always enough for pnl_sheet */
    PNL_FIND_SIZE = 16,                 /* the answer of pnl_find and of pnl_find_at */
    PNL_DISTANCE_SIZE = 4,              /* the answer of pnl_distance */
    PNL_QUOTE_SIZE = 8                  /* the answer of pnl_quote */
};

/* What pnl_distance answers for two fittings that no way joins. A distance is at most 409,600,000. */
#define PNL_NOT_JOINED 4294967295u

/* What a pipe does to runs and rings where it lands: the first number that pnl_quote answers. */
enum pnl_case {
    PNL_CASE_NEW_RUN = 1,               /* it is a run of its own */
    PNL_CASE_EXTENDS = 2,               /* a run goes on by it */
    PNL_CASE_MERGES = 3,                /* it joins two runs to one */
    PNL_CASE_SPLITS_AND_EXTENDS = 4,    /* a coupling becomes a junction, where its run is split or its ring tapped; another run, or a piece
                                         * of that one, goes on by the pipe */
    PNL_CASE_SPLITS = 5,                /* the same, and the pipe is a run of its own */
    PNL_CASE_SPLITS_TWICE = 6,          /* two couplings become junctions so, and the pipe is a run of its own */
    PNL_CASE_RING = 7                   /* it closes a run to a ring */
};

/* The number at a place of an answer, counted in numbers from 0: pnl_number(answer, 1) is the second of them. */
static inline uint32_t pnl_number(const uint8_t *answer, size_t place)
{
    const uint8_t *bytes = answer + 4 * place;

    return (uint32_t)bytes[0] | (uint32_t)bytes[1] << 8 | (uint32_t)bytes[2] << 16 | (uint32_t)bytes[3] << 24;
}

/* What a call returned, in words: a refusal's meaning; "no refusal" from 0 on; "unknown refusal" for what no call returns. */
static inline const char *pnl_refusal_text(int32_t returned)
{
    switch (returned) {
    case PNL_REFUSED_NO_MARK: return "the list does not begin with the letters PNL";
    case PNL_REFUSED_VERSION: return "the list's version is neither 1 nor 2";
    case PNL_REFUSED_CUT: return "the list ends within its header or within a record";
    case PNL_REFUSED_UNKNOWN_KIND: return "the record is neither a fitting nor a pipe";
    case PNL_REFUSED_NOT_LANDED: return "there is no fitting of that number yet";
    case PNL_REFUSED_SAME_FITTING: return "the pipe goes from a fitting to itself";
    case PNL_REFUSED_LENGTH: return "the pipe's length is 0 or above 100,000 mm";
    case PNL_REFUSED_VOLUME: return "the pipe's volume is above 1,000,000 ml";
    case PNL_REFUSED_TOO_MANY_FITTINGS: return "there are 4,096 fittings already";
    case PNL_REFUSED_TOO_MANY_PIPES: return "there are 4,096 pipes already";
    case PNL_REFUSED_WINDOW: return "no records leave such a window";
    case PNL_REFUSED_WRONG_SIZE: return "a table does not have 1,440 places";
    case PNL_REFUSED_AMOUNT: return "the record is above 1,000,000 ml";
    case PNL_REFUSED_PLAN_BOUNDS: return "the flow is not 1 to 1,000,000 ml a minute, the minute is above 10,079, or there are more than 32 windows";
    case PNL_REFUSED_PLAN_WINDOWS: return "a window does not start before its end, ends above 10,080, or starts before the previous one's end";
    case PNL_REFUSED_NO_COUPLING: return "no coupling wears that tag or has that number";
    case PNL_REFUSED_SHORT_ANSWER: return "the answer does not fit in the bytes given for it";
    default: return returned < 0 ? "unknown refusal" : "no refusal";
    }
}

/* The runs and rings by rising name, PNL_SHEET_ROW bytes each, six numbers: name; the end with the lower fitting number; the other end;
 * how many couplings; length in mm; volume in ml, or 0 where that of one of its pipes is not known. A volume is at most 4,096,000,000: it
 * needs all 32 bits. A ring has its lowest fitting as both ends and all its fittings as couplings. Returns PNL_SHEET_ROW times the number
 * of runs and rings, which is at most the number of pipes.
 *
 * Refusals: those of the list; PNL_REFUSED_SHORT_ANSWER. */
int32_t pnl_sheet(const uint8_t *list, size_t list_len, uint8_t *answer, size_t answer_len);

/* The coupling that wears `tag`, four numbers: the name of its run or ring; the coupling's fitting number; the lengths in mm from it along
 * its run to the low end and to the high end, in a ring, which has no ends, 0 and the ring's length. The two lengths add up to that of the
 * run or ring; on a run neither is 0. Returns PNL_FIND_SIZE.
 *
 * Refusals: those of the list; PNL_REFUSED_NO_COUPLING if no coupling wears the tag, as none wears 0; PNL_REFUSED_SHORT_ANSWER. */
int32_t pnl_find(const uint8_t *list, size_t list_len, uint32_t tag, uint8_t *answer, size_t answer_len);

/* The same four numbers of the coupling with this fitting number, which is the second of them. Returns PNL_FIND_SIZE.
 *
 * Refusals: those of the list; PNL_REFUSED_NO_COUPLING if it is a junction, or if there is no such fitting, whatever the number;
 * PNL_REFUSED_SHORT_ANSWER. */
int32_t pnl_find_at(const uint8_t *list, size_t list_len, uint32_t fitting, uint8_t *answer, size_t answer_len);

/* The length in mm of the shortest way over pipes between two fittings, 0 from a fitting to itself, or PNL_NOT_JOINED: one number.
 * Returns PNL_DISTANCE_SIZE.
 *
 * Refusals: those of the list; PNL_REFUSED_NOT_LANDED if there is no such fitting, whatever the number; PNL_REFUSED_SHORT_ANSWER. */
int32_t pnl_distance(const uint8_t *list, size_t list_len, uint32_t from, uint32_t to, uint8_t *answer, size_t answer_len);

/* What a pipe between these two fittings, of so many mm and ml (0: not known), would come to if it were landed next, two numbers: its case,
 * one of the PNL_CASE constants, and how many tags would be re-hung. Nothing is landed. Once the pipe is put behind the list as a record,
 * just so many tags are re-hung by it. Returns PNL_QUOTE_SIZE.
 *
 * Refusals: those of the list; the one that the pipe would meet as a record: PNL_REFUSED_NOT_LANDED if there is no such fitting, whatever
 * the number, PNL_REFUSED_SAME_FITTING, PNL_REFUSED_LENGTH, PNL_REFUSED_VOLUME, PNL_REFUSED_TOO_MANY_PIPES; PNL_REFUSED_SHORT_ANSWER. */
int32_t pnl_quote(const uint8_t *list, size_t list_len, uint32_t first, uint32_t second, uint32_t length, uint32_t volume, uint8_t *answer,
                  size_t answer_len);

/* Which recipe is at the valve.
 *
 * The mixer writes a record every minute: the number of a recipe, and how many ml of it passed, 0 to 1,000,000. A window holds the last
 * PNL_VALVE_MINUTES records; until so many have come, all. For a valve with so many ml of water between the mixer and itself it tells the
 * recipe that is there now.
 *
 *   Window     the caller's own memory, which the caller keeps from minute to minute, for years: no number in it grows without end. It is
 *              handed to each call in four parts: a table of recipes and a table of ml, each with PNL_VALVE_MINUTES places; the place
 *              that the next record takes, which is that of the oldest; and the sum of the ml. All zero, as in
 *              `static struct pnl_valve valve;`, it is empty. It may be written to a file and read back as it is.
 *   Returns    0 or more, as each call says; or a refusal, below 0. Under a refusal nothing is written.
 *   Order      WRONG_SIZE, then WINDOW: for one that no records can have left, since its next place is none of the 1,440, or one of its
 *              amounts is above 1,000,000, or its sum is not that of its amounts. Then AMOUNT.
 *   Lengths    recipes_len and amounts_len are in elements. A table may be null where its length is 0; `next` and `sum` may not.
 *   Overlap    the four parts must not overlap.
 *   Threads    a call that adds a record writes the window: no other call on that window at the same time.
 */
enum pnl_valve_size {
    PNL_VALVE_MINUTES = 1440,           /* the records of a window */
    PNL_VALVE_AMOUNT_MOST = 1000000,    /* the ml of the largest record */
    PNL_VALVE_OLDER = 65536             /* in place of a recipe: it left the mixer before the window's records */
};

struct pnl_valve {
    uint16_t recipes[PNL_VALVE_MINUTES];
    uint32_t amounts[PNL_VALVE_MINUTES];
    uint16_t next;
    uint32_t sum;
};

/* The record of this minute: it takes the place of the oldest. Returns 0. A record of 0 ml takes a place too. C cuts a wider recipe number
 * to 16 bits without a word: test it first.
 *
 * Refusals: PNL_REFUSED_WRONG_SIZE; PNL_REFUSED_WINDOW; PNL_REFUSED_AMOUNT. */
int32_t pnl_valve_arrive(uint16_t *recipes, size_t recipes_len, uint32_t *amounts, size_t amounts_len, uint16_t *next, uint32_t *sum,
                         uint16_t recipe, uint32_t amount);

/* The recipe at a valve with `volume` ml between the mixer and itself, any number of 32 bits: the recipe of the record that holds the ml
 * after these, counted back from now, and so for 0 the one that leaves the mixer. A record of 0 ml holds none. Returns the recipe, 0 to
 * 65,535; or PNL_VALVE_OLDER if the records hold `volume` ml or fewer.
 *
 * Refusals: PNL_REFUSED_WRONG_SIZE; PNL_REFUSED_WINDOW. */
int32_t pnl_valve_recipe(const uint16_t *recipes, size_t recipes_len, const uint32_t *amounts, size_t amounts_len, uint16_t next,
                         uint32_t sum, uint32_t volume);

/* The same two with the window as one. PNL_REFUSED_WRONG_SIZE cannot come then. */
static inline int32_t pnl_record_arrives(struct pnl_valve *valve, uint16_t recipe, uint32_t amount)
{
    return pnl_valve_arrive(valve->recipes, PNL_VALVE_MINUTES, valve->amounts, PNL_VALVE_MINUTES, &valve->next, &valve->sum, recipe,
                            amount);
}

static inline int32_t pnl_recipe_at(const struct pnl_valve *valve, uint32_t volume)
{
    return pnl_valve_recipe(valve->recipes, PNL_VALVE_MINUTES, valve->amounts, PNL_VALVE_MINUTES, valve->next, valve->sum, volume);
}

/* When a change of recipe can go through.
 *
 * A change of recipe may go through a compartment within its windows alone, the same each week. It needs its transit: as many minutes as the
 * volume between the mixer and the compartment takes at the given flow, the quotient rounded up. The call tells the first minute from which
 * the whole transit lies inside one window. The volume of a run or ring is the last number of its line: pnl_number(sheet, 6 * line + 5).
 *
 *   Minute     of the week, 0 to 10,079; those of the next week are counted on, 10,080 to 20,159.
 *   Window     two numbers: the minute at which it starts, and the one at which it ends, which is no longer inside, at most 10,080. The
 *              windows of a week stand in their order. One may start where the previous one ends: they stay two windows, and no
 *              transit goes from one into the other. Nor does one go over the end of a week.
 *   Returns    0 or more: a minute, PNL_PLAN_NONE or PNL_PLAN_UNKNOWN; or a refusal, below 0.
 *   Order      PLAN_BOUNDS, then PLAN_WINDOWS, of all windows. Both come before PNL_PLAN_UNKNOWN.
 *   Lengths    windows_len is in numbers, two for each window; a last number without an end is refused with PLAN_WINDOWS. `windows` may be
 *              null where it is 0. C cuts a wider number to 16 bits without a word: test it first.
 *   Threads    nothing is kept, and nothing written.
 */
enum pnl_plan_size {
    PNL_PLAN_WINDOWS = 32,              /* the most windows */
    PNL_PLAN_FLOW_MOST = 1000000,       /* the largest flow, in ml a minute */
    PNL_PLAN_WEEK = 10080,              /* the minutes of a week: the first minute of the next one */
    PNL_PLAN_NONE = 20160,              /* in place of a minute: no window is as long as the transit */
    PNL_PLAN_UNKNOWN = 20161            /* in place of a minute: the volume is 0, which is unknown */
};

struct pnl_window {
    uint16_t start;
    uint16_t end;
};

/* The first minute at or after `minute`, this week or the next, from which `volume` ml at `flow` ml a minute lie inside one window: 0 to
 * 20,159; PNL_PLAN_NONE if no window is that long; PNL_PLAN_UNKNOWN for the volume 0. A volume is any number of 32 bits.
 *
 * Refusals: PNL_REFUSED_PLAN_BOUNDS; PNL_REFUSED_PLAN_WINDOWS. */
int32_t pnl_plan(const uint16_t *windows, size_t windows_len, uint32_t volume, uint32_t flow, uint32_t minute);

/* The same with so many windows as structs. */
static inline int32_t pnl_plan_windows(const struct pnl_window *windows, size_t count, uint32_t volume, uint32_t flow, uint32_t minute)
{
    return pnl_plan((const uint16_t *)windows, 2 * count, volume, flow, minute);
}

#ifdef __cplusplus
}
#endif

#endif
