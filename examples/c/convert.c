/*
 * Converts a file of teletex text from one form to another.
 *
 *     convert SOURCE TARGET FILE OUTPUT
 *
 * SOURCE and TARGET are 1 (T51String in eight bits), 2 (in seven bits) or 3 (basic T.61). One line says how many elements did not
 * stand in SOURCE's canonical spelling. Exit status: 0, converted; 1, the text is refused, and the message names the octet and its place,
 * except for 11 and 12, which are about none; 2, anything else. OUTPUT is written only where the text is converted.
 */
#include <inttypes.h>
#include <stdint.h>
#include <stdio.h>
#include <stdlib.h>

#include "oakentwirl.h"

struct octets {
    uint8_t *start;
    size_t length;
};

/* What is said of the octet that a refusal names. */
static const char *const said[] = {
    [OAK_BEGINS_NOTHING] = "begins nothing in the form",
    [OAK_ESCAPE] = "calls for another alphabet, which is not read",
    [OAK_NOT_A_FOLLOWER] = "may not follow the mark or the underline before it",
    [OAK_CUT_SHORT] = "begins an element that the end of the text cuts short",
    [OAK_HIGH_OCTET] = "is over 7F in a form of seven bits",
    [OAK_NOT_ALLOWED] = "is not allowed at this point of a control sequence",
    [OAK_PASSES_LIMIT] = "passes 999 or opens a ninth value in a control sequence",
    [OAK_FORTIETH] = "is the 40th of a control sequence and does not end it",
    [OAK_NOT_HELD] = "begins an element that the target form lacks",
};

static int fail(const char *what, const char *why)
{
    fprintf(stderr, "convert: %s: %s\n", what, why);
    return 2;
}

/* Names a refusal in words, with its octet in hex and the octet's place. */
static int refused(struct oak_reading a, struct octets text)
{
    if (a.number == OAK_NO_FORM || a.number == OAK_TOO_LONG) {
        fprintf(stderr, "convert: refused with %zu: %s\n", a.number,
                a.number == OAK_NO_FORM ? "a form is not 1, 2 or 3" : "the text is over 1048576 octets");
        return 1;
    }
    /* These two are about the element that begins at `place`, the others about the octet at `count`. */
    size_t at = a.number == OAK_CUT_SHORT || a.number == OAK_NOT_HELD ? a.place : a.count;
    fprintf(stderr, "convert: refused with %zu: octet %02X at place %zu, in element %zu, %s\n", a.number, text.start[at], at,
            a.element, said[a.number]);
    return 1;
}

/* The whole file, or a null start where it cannot be had. */
static struct octets load(const char *name)
{
    struct octets text = {NULL, 0};
    FILE *file = fopen(name, "rb");
    if (file == NULL)
        return text;
    size_t room = 0;
    do {
        room = 2 * room + 4096;
        uint8_t *more = realloc(text.start, room);
        if (more == NULL)
            break;
        text.start = more;
        text.length += fread(text.start + text.length, 1, room - text.length, file);
    } while (text.length == room);
    if (ferror(file) || text.length == room) {
        free(text.start);
        text.start = NULL;
    }
    fclose(file);
    return text;
}

static int store(const char *name, struct octets text)
{
    FILE *file = fopen(name, "wb");
    if (file == NULL)
        return 0;
    size_t written = fwrite(text.start, 1, text.length, file);
    return (fclose(file) == 0) & (written == text.length);
}

static int convert(uint32_t source, uint32_t target, struct octets text, const char *output)
{
    /* With no room at all, the answer says how much is needed. */
    struct oak_reading a = oak_convert(source, target, text.start, text.length, NULL, 0);
    struct octets out = {NULL, 0};
    if (a.number == OAK_SHORT_ROOM) {
        out.length = a.count;
        out.start = malloc(out.length);
        if (out.start == NULL)
            return fail(output, "no memory");
        a = oak_convert(source, target, text.start, text.length, out.start, out.length);
    }
    int status = 0;
    if (a.number != OAK_ACCEPTED)
        status = refused(a, text);
    else if (!store(output, out))
        status = fail(output, "cannot be written");
    else if (printf("elements that were not canonical in form %" PRIu32 ": %zu\n", source, a.respelled) < 0 || fflush(stdout) != 0)
        status = fail("the number", "cannot be written");
    free(out.start);
    return status;
}

/* The number that one digit says; 0, which is no form, for anything else. */
static uint32_t form_of(const char *said_form)
{
    return said_form[0] >= '0' && said_form[0] <= '9' && said_form[1] == '\0' ? (uint32_t)(said_form[0] - '0') : 0;
}

int main(int count, char **arguments)
{
    if (count != 5)
        return fail("usage", "convert SOURCE TARGET FILE OUTPUT");
    struct octets text = load(arguments[3]);
    if (text.start == NULL)
        return fail(arguments[3], "cannot be read");
    int status = convert(form_of(arguments[1]), form_of(arguments[2]), text, arguments[4]);
    free(text.start);
    return status;
}
