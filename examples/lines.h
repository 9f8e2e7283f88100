/* A text of lines with two numbers each, read from standard input, for the programs of this folder that take one (valve.c, plan.c).
 *
 * The numbers are digits, with blanks between them; '#' starts a comment; a line without numbers is passed over. Each line has to be
 * ended, the last one too: of a text that was cut while it was written the rest of a number may be missing. */
#ifndef LINES_H
#define LINES_H

#include <errno.h>
#include <inttypes.h>
#include <stdio.h>
#include <string.h>

#include "pnl.h"

/* What a program makes of the two numbers of a line: 0; a refusal, below 0; or NO_LINE, where no line has such numbers. */
typedef int32_t taking(uint32_t first, uint32_t second);
enum { NO_LINE = 1 };

/* The text of a program: its name, what its lines hold, what one is, and what becomes of each. */
struct text {
    const char *program;
    const char *holds;
    const char *form;
    taking *take;
    unsigned long line;
};

static int fail(const char *program, const char *words, const char *more)
{
    fprintf(stderr, "%s: %s%s\n", program, words, more);
    return 2;
}

/* The next byte. A line may end with a carriage return in front of its end. */
static int get(void)
{
    int c = getchar(), behind;

    if (c != '\r')
        return c;
    behind = getchar();
    if (behind == '\n')
        return behind;
    ungetc(behind, stdin);
    return c;
}

/* The first byte of the text behind a byte order mark, which some editors write in front; a part of one is a byte of no line. */
static int get_first(void)
{
    int c = get();

    if (c != 0xef)
        return c;
    return get() == 0xbb && get() == 0xbf ? get() : c;
}

static int skip_blanks(int c)
{
    while (c == ' ' || c == '\t')
        c = get();
    return c;
}

/* Behind the numbers, or in a line without them: blanks, and perhaps a comment. A lone carriage return is neither blank nor comment, so its
 * line is refused: what an editor shows behind it as a line would be hidden. */
static int skip_rest(int c)
{
    c = skip_blanks(c);
    if (c == '#')
        while (c != '\n' && c != '\r' && c != EOF)
            c = get();
    return c;
}

/* A number in digits from c on, if there is one, and what stands behind it; one above 32 bits becomes the largest. */
static int read_number(int c, uint32_t *number, int *found)
{
    uint64_t value = 0;

    for (*found = 0; c >= '0' && c <= '9'; c = get(), *found = 1)
        if (value <= UINT32_MAX)
            value = 10 * value + (uint64_t)(c - '0');
    *number = value <= UINT32_MAX ? (uint32_t)value : UINT32_MAX;
    return c;
}

/* A line that ends with c is none, or its end is missing. */
static int no_line(const struct text *text, int c)
{
    if (c != EOF)
        fprintf(stderr, "%s: line %lu: %s\n", text->program, text->line, text->form);
    else if (!ferror(stdin))
        fprintf(stderr, "%s: line %lu: not finished: its end is missing\n", text->program, text->line);
    return 2;
}

/* Reads a line, makes *c what ends it, and hands its numbers on, if it has them. Returns 0, or the status of a failure. */
static int take_line(struct text *text, int *c)
{
    uint32_t first, second;
    int32_t returned;
    int found, blank;

    *c = text->line == 1 ? get_first() : get();
    if (*c == EOF)
        return 0;
    *c = skip_rest(*c);
    if (*c == '\n')
        return 0;
    *c = read_number(*c, &first, &found);
    blank = *c == ' ' || *c == '\t';
    if (!found || !blank)
        return no_line(text, *c);
    *c = skip_rest(read_number(skip_blanks(*c), &second, &found));
    if (!found || *c != '\n')
        return no_line(text, *c);
    returned = text->take(first, second);
    if (returned == NO_LINE)
        return no_line(text, *c);
    if (returned == 0)
        return 0;
    fprintf(stderr, "%s: line %lu: refusal %" PRId32 ": %s\n", text->program, text->line, -returned, pnl_refusal_text(returned));
    return 1;
}

/* All lines of the text: 0, or the status of a failure. */
static int take_lines(struct text *text)
{
    char words[80];
    int c, status;

    for (text->line = 1; (status = take_line(text, &c)) == 0 && c != EOF; text->line++)
        ;
    /* A read that fails is not the end of the text. */
    if (!ferror(stdin))
        return status;
    snprintf(words, sizeof words, "cannot read the %s: ", text->holds);
    return fail(text->program, words, strerror(errno));
}

/* A word of the command line in digits, up to 32 bits: whether it is one. One above becomes the largest where `cut` says so. */
static int read_word(const char *word, int cut, uint32_t *number)
{
    uint64_t value = 0;
    const char *digit = word;

    for (; *digit >= '0' && *digit <= '9'; digit++)
        if (value <= UINT32_MAX)
            value = 10 * value + (uint64_t)(*digit - '0');
    *number = value <= UINT32_MAX ? (uint32_t)value : UINT32_MAX;
    return digit != word && *digit == '\0' && (cut || value <= UINT32_MAX);
}

#endif
