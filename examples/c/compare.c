/*
 * Says what changed between two files of teletex text of one form, by what they mean.
 *
 *     compare FORM FIRST SECOND
 *
 * FORM is 1 (T51String in eight bits), 2 (in seven bits) or 3 (basic T.61). One line says that both mean the same, and how many elements
 * are spelled otherwise; or at which element they differ, with its octets in hex and its place in each; or which file goes on where the
 * other ends, and with which element. Elements and places are counted from 0. Exit status, as diff's: 0, they mean the same; 1, they
 * differ; 2, a text is refused, and the message names the file, the octet and its place, except for 11 and 12, which are about no octet;
 * or anything else.
 */
#include <stdint.h>
#include <stdio.h>
#include <stdlib.h>

#include "oakentwirl.h"

/* A text, and the file that it stands in. */
struct text {
    const char *name;
    uint8_t *start;
    size_t length;
};

/* What is said of the octet that a refusal names. */
static const char *const said[] = {
    [OAK_BEGINS_NOTHING] = "begins nothing in the form",
    [OAK_ESCAPE] = "calls for another alphabet, which is not read",
    [OAK_NOT_A_FOLLOWER] = "may not follow the mark or the underline before it",
    [OAK_CUT_SHORT] = "begins an element that the end of the text cuts short",
    [OAK_HIGH_OCTET] = "is over 7F in a form of seven bits",
    [OAK_NOT_ALLOWED] = "is not allowed at this point of a control sequence",
    [OAK_PASSES_LIMIT] = "passes 999 or opens a ninth value in a control sequence",
    [OAK_FORTIETH] = "is the 40th of a control sequence and does not end it",
};

static int fail(const char *what, const char *why)
{
    fprintf(stderr, "compare: %s: %s\n", what, why);
    return 2;
}

/* Names a refusal in words, with the file, its octet in hex and the octet's place. */
static int refused(struct oak_comparison c, struct text text)
{
    if (c.number == OAK_NO_FORM)
        return fail("refused with 11", "the form is not 1, 2 or 3");
    if (c.number == OAK_TOO_LONG)
        return fail(text.name, "refused with 12: the text is over 1048576 octets");
    /* A text that is cut short names the element that begins at `place`, the others the octet at `count`. */
    size_t at = c.number == OAK_CUT_SHORT ? c.place : c.count;
    fprintf(stderr, "compare: %s: refused with %zu: octet %02X at place %zu, in element %zu, %s\n", text.name, c.number, text.start[at], at,
            c.element, said[c.number]);
    return 2;
}

static void say_octets(const uint8_t *start, size_t count)
{
    for (size_t i = 0; i < count; i++)
        printf(" %02X", start[i]);
}

/* The element at a place, and where that is. */
static void say_element(uint32_t form, struct text text, size_t place)
{
    uint32_t words[OAK_MOST_WORDS];
    struct oak_reading e = oak_element(form, text.start, text.length, place, words, OAK_MOST_WORDS);
    say_octets(text.start + place, e.place - place);
    printf(" at place %zu of %s", place, text.name);
}

/* What the one file has more than the other: its first element, and how many octets there are in all. */
static void say_tail(uint32_t form, struct text longer, struct text shorter, size_t element, size_t place)
{
    printf("%s goes on where %s ends, with element %zu:", longer.name, shorter.name, element);
    say_element(form, longer, place);
    printf(", %zu octets more in all\n", longer.length - place);
}

/* What changed, in words. */
static int tell(uint32_t form, struct text first, struct text second, struct oak_comparison c)
{
    if (c.same) {
        printf("the same: %zu elements, %zu of them spelled otherwise\n", c.element, c.otherwise);
        return 0;
    }
    if (c.tail_text == 2) {
        say_tail(form, second, first, c.element, c.tail_place);
    } else if (c.second_place == second.length) {
        say_tail(form, first, second, c.element, c.tail_place);
    } else {
        printf("element %zu differs:", c.element);
        say_element(form, first, c.first_place);
        printf(",");
        say_element(form, second, c.second_place);
        printf("\n");
    }
    return 1;
}

static int compare(uint32_t form, struct text first, struct text second)
{
    struct oak_comparison c = oak_compare(form, first.start, first.length, second.start, second.length);
    if (c.number != OAK_ACCEPTED)
        return refused(c, c.text == 2 ? second : first);
    int status = tell(form, first, second, c);
    return fflush(stdout) == 0 ? status : fail("what changed", "cannot be written");
}

/* The whole file, or a null start where it cannot be had. */
static struct text load(const char *name)
{
    struct text text = {name, NULL, 0};
    FILE *file = fopen(name, "rb");
    if (file == NULL)
        return text;
    size_t room = 0;
    do {
        room = 2 * room + 4096;
        uint8_t *more = realloc(text.start, room);
        if (more == NULL)
            break;
        text.start = more;
        text.length += fread(text.start + text.length, 1, room - text.length, file);
    } while (text.length == room);
    if (ferror(file) || text.length == room) {
        free(text.start);
        text.start = NULL;
    }
    fclose(file);
    return text;
}

int main(int count, char **arguments)
{
    if (count != 4)
        return fail("usage", "compare FORM FIRST SECOND");
    /* The number that one digit says; 0, which is no form, for anything else. */
    const char *said_form = arguments[1];
    uint32_t form = said_form[0] >= '0' && said_form[0] <= '9' && said_form[1] == '\0' ? (uint32_t)(said_form[0] - '0') : 0;
    struct text first = load(arguments[2]), second = load(arguments[3]);
    int status;
    if (first.start == NULL)
        status = fail(first.name, "cannot be read");
    else if (second.start == NULL)
        status = fail(second.name, "cannot be read");
    else
        status = compare(form, first, second);
    free(first.start);
    free(second.start);
    return status;
}
