/*
 * Reads a page of teletex text off a serial lead: standard input, as it comes, a few octets at a time.
 *
 *     serial FORM <PAGE
 *
 * FORM is 1 (T51String in eight bits), 2 (in seven bits) or 3 (basic T.61). Each word is printed in hex, on a line of its own, as soon as
 * its element is whole. The last line says how many elements, octets and words the page has, and how many of the elements are not
 * canonical. Exit status: 0, the page is read; 1, it is refused, and the message names the octet and its place, except for 11 and 12, which
 * are about none; 2, anything else. The words before a fault are printed in any case.
 */
#include <inttypes.h>
#include <stdint.h>
#include <stdio.h>
#include <unistd.h>

#include "oakentwirl.h"

/* At most so many octets a call; the lead may give fewer. */
#define PIECE 7

/* The last octets of the page, each at its place: the one that a refusal names is among them. */
#define KEPT 64

/* What is said of the octet that a refusal names. */
static const char *const said[] = {
    [OAK_BEGINS_NOTHING] = "begins nothing in the form",
    [OAK_ESCAPE] = "calls for another alphabet, which is not read",
    [OAK_NOT_A_FOLLOWER] = "may not follow the mark or the underline before it",
    [OAK_CUT_SHORT] = "begins an element that the end of the text cuts short",
    [OAK_HIGH_OCTET] = "is over 7F in a form of seven bits",
    [OAK_NOT_ALLOWED] = "is not allowed at this point of a control sequence",
    [OAK_PASSES_LIMIT] = "passes 999 or opens a ninth value in a control sequence",
    [OAK_FORTIETH] = "is the 40th of a control sequence and does not end it",
};

static int fail(const char *what, const char *why)
{
    fprintf(stderr, "serial: %s: %s\n", what, why);
    return 2;
}

/* Names a refusal in words, with its octet in hex and the octet's place. */
static int refused(struct oak_reading a, const uint8_t *kept)
{
    if (a.number == OAK_NO_FORM || a.number == OAK_TOO_LONG) {
        fprintf(stderr, "serial: refused with %zu: %s\n", a.number,
                a.number == OAK_NO_FORM ? "the form is not 1, 2 or 3" : "the page is over 1048576 octets");
        return 1;
    }
    /* A page that is cut short names the element that begins at `place`, the others the octet at `count`. */
    size_t at = a.number == OAK_CUT_SHORT ? a.place : a.count;
    fprintf(stderr, "serial: refused with %zu: octet %02X at place %zu, in element %zu, %s\n", a.number, kept[at % KEPT], at, a.element,
            said[a.number]);
    return 1;
}

/* Prints the words, and sends them off at once. */
static int print(const uint32_t *words, size_t count)
{
    for (size_t i = 0; i < count; i++)
        printf("%08" PRIX32 "\n", words[i]);
    return fflush(stdout) == 0;
}

/* Feeds the page to its end, or to its first fault. */
static int read_page(uint32_t form)
{
    uint8_t piece[PIECE], kept[KEPT] = {0};
    uint32_t words[PIECE + OAK_MOST_HELD];
    struct oak_fed fed = oak_fresh(form);
    ssize_t size = 1;

    for (size_t place = 0; fed.answer.number == OAK_ACCEPTED && size != 0;) {
        size = read(STDIN_FILENO, piece, sizeof piece);
        if (size < 0)
            return fail("the page", "cannot be read");
        for (ssize_t i = 0; i < size; i++)
            kept[place++ % KEPT] = piece[i];
        /* Where nothing more comes, the page has ended. */
        fed = oak_feed(fed.carry, piece, (size_t)size, size == 0, words, sizeof words / sizeof words[0]);
        if (!print(words, fed.handed))
            return fail("the words", "cannot be written");
    }
    if (fed.answer.number != OAK_ACCEPTED)
        return refused(fed.answer, kept);
    struct oak_reading a = fed.answer;
    printf("%zu elements, %zu of them not canonical; %zu octets, %zu words\n", a.element, a.respelled, a.place, a.count);
    return fflush(stdout) == 0 ? 0 : fail("the words", "cannot be written");
}

int main(int count, char **arguments)
{
    if (count != 2)
        return fail("usage", "serial FORM <PAGE");
    /* The number that one digit says; 0, which is no form, for anything else. */
    const char *form = arguments[1];
    return read_page(form[0] >= '0' && form[0] <= '9' && form[1] == '\0' ? (uint32_t)(form[0] - '0') : 0);
}
