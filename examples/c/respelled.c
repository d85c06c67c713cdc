/*
 * Names each element of a file of teletex text that does not stand in its form's canonical spelling.
 *
 *     respelled FORM FILE
 *
 * FORM is 1 (T51String in eight bits), 2 (in seven bits) or 3 (basic T.61). Each such element has a line, with its octets in hex, its place
 * and its canonical spelling. The last line says how many elements there are, and how many of them are not canonical: the number
 * that a conversion of the file carries. Elements and places are counted from 0. Exit status: 0, the text is read; 1, it is refused, and the
 * message names the octet and its place, except for 11 and 12, which are about none; 2, anything else. The elements before a fault are named
 * in any case.
 */
#include <stdint.h>
#include <stdio.h>
#include <stdlib.h>

#include "oakentwirl.h"

/* The most octets of an element: one more than may wait of an unfinished one. */
#define MOST (OAK_MOST_HELD + 1)

struct octets {
    uint8_t *start;
    size_t length;
};

/* What is said of the octet that a refusal names. */
static const char *const said[] = {
    [OAK_BEGINS_NOTHING] = "begins nothing in the form",
    [OAK_ESCAPE] = "calls for another alphabet, which is not read",
    [OAK_NOT_A_FOLLOWER] = "may not follow the mark or the underline before it",
    [OAK_CUT_SHORT] = "begins an element that the end of the text cuts short",
    [OAK_HIGH_OCTET] = "is over 7F in a form of seven bits",
    [OAK_NOT_ALLOWED] = "is not allowed at this point of a control sequence",
    [OAK_PASSES_LIMIT] = "passes 999 or opens a ninth value in a control sequence",
    [OAK_FORTIETH] = "is the 40th of a control sequence and does not end it",
};

static int fail(const char *what, const char *why)
{
    fprintf(stderr, "respelled: %s: %s\n", what, why);
    return 2;
}

/* Names a refusal in words, with its octet in hex and the octet's place. */
static int refused(struct oak_reading a, struct octets text)
{
    if (a.number == OAK_NO_FORM || a.number == OAK_TOO_LONG) {
        fprintf(stderr, "respelled: refused with %zu: %s\n", a.number,
                a.number == OAK_NO_FORM ? "the form is not 1, 2 or 3" : "the text is over 1048576 octets");
        return 1;
    }
    /* A text that is cut short names the element that begins at `place`, the others the octet at `count`. */
    size_t at = a.number == OAK_CUT_SHORT ? a.place : a.count;
    fprintf(stderr, "respelled: refused with %zu: octet %02X at place %zu, in element %zu, %s\n", a.number, text.start[at], at, a.element,
            said[a.number]);
    return 1;
}

static void say_octets(const uint8_t *start, size_t count)
{
    for (size_t i = 0; i < count; i++)
        printf(" %02X", start[i]);
}

/* An element that is not canonical: its octets, its place, and the spelling that a conversion within the form gives it. */
static void say_element(uint32_t form, struct octets text, size_t element, size_t place, size_t after)
{
    uint8_t canonical[MOST];
    struct oak_reading a = oak_convert(form, form, text.start + place, after - place, canonical, MOST);
    printf("element %zu:", element);
    say_octets(text.start + place, after - place);
    printf(" at place %zu, canonical", place);
    say_octets(canonical, a.count);
    printf("\n");
}

/* Goes through the text element by element, up to its end or its first fault. What was counted is made the answer that oak_read gives. */
static struct oak_reading go_through(uint32_t form, struct octets text)
{
    struct oak_reading so_far = {OAK_ACCEPTED, 0, 0, 0, 0};
    uint32_t words[OAK_MOST_WORDS];

    for (;;) {
        struct oak_reading e = oak_element(form, text.start, text.length, so_far.place, words, OAK_MOST_WORDS);
        if (e.number != OAK_ACCEPTED) {
            /* It was read by itself, so only here is it known how many stand before it. */
            e.element = so_far.element;
            return e;
        }
        if (e.element == 0)
            return so_far;
        if (e.respelled)
            say_element(form, text, so_far.element, so_far.place, e.place);
        so_far.element++;
        so_far.place = e.place;
        so_far.count += e.count;
        so_far.respelled += e.respelled;
    }
}

/* Whether all that was printed so far could be written: a line that was lost is remembered. */
static int is_printed(void)
{
    return fflush(stdout) == 0 && !ferror(stdout);
}

static int name_each(uint32_t form, struct octets text)
{
    struct oak_reading a = go_through(form, text);
    if (!is_printed())
        return fail("the elements", "cannot be written");
    if (a.number != OAK_ACCEPTED)
        return refused(a, text);
    /* The text read at once carries the same number; an empty one has no words to make room for. */
    uint32_t *words = malloc((a.count + 1) * sizeof *words);
    if (words == NULL)
        return fail("the words", "no memory");
    struct oak_reading whole = oak_read(form, text.start, text.length, words, a.count);
    free(words);
    if (whole.number != OAK_ACCEPTED || whole.element != a.element || whole.respelled != a.respelled)
        return fail("the number", "it is another where the text is read at once");
    printf("%zu elements, %zu of them not canonical\n", a.element, a.respelled);
    return is_printed() ? 0 : fail("the number", "cannot be written");
}

/* The whole file, or a null start where it cannot be had. */
static struct octets load(const char *name)
{
    struct octets text = {NULL, 0};
    FILE *file = fopen(name, "rb");
    if (file == NULL)
        return text;
    size_t room = 0;
    do {
        room = 2 * room + 4096;
        uint8_t *more = realloc(text.start, room);
        if (more == NULL)
            break;
        text.start = more;
        text.length += fread(text.start + text.length, 1, room - text.length, file);
    } while (text.length == room);
    if (ferror(file) || text.length == room) {
        free(text.start);
        text.start = NULL;
    }
    fclose(file);
    return text;
}

int main(int count, char **arguments)
{
    if (count != 3)
        return fail("usage", "respelled FORM FILE");
    struct octets text = load(arguments[2]);
    if (text.start == NULL)
        return fail(arguments[2], "cannot be read");
    /* The number that one digit says; 0, which is no form, for anything else. */
    const char *form = arguments[1];
    int status = name_each(form[0] >= '0' && form[0] <= '9' && form[1] == '\0' ? (uint32_t)(form[0] - '0') : 0, text);
    free(text.start);
    return status;
}
