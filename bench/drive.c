/* Does one job on one text so many times: the counts of two runs, with one round and with none, differ by what the job costs.
     drive JOB TEXT OCTETS ROUNDS
   JOB: read-F, write-F, convert-F-G; list-F-N, which writes the first N words alone; feed-F-N, a page in pieces of N octets; element-F, the
   text gone through element by element; compare-F, the text beside the same octets; respelt-F, the text beside its canonical spelling;
   iconv-F:FROM:TO, on the octets of form F; iconv-words-F:NAME, which writes as NAME what iconv read of these octets from NAME.
   TEXT: ascii, nine-to-one, pairs, supplementary, sequences, upper-sequences; not-canonical, nine letters to one element that the form
   spells otherwise. */
#include <iconv.h>
#include <stdint.h>
#include <stdio.h>
#include <stdlib.h>
#include <string.h>

#include "oakentwirl.h"

#define MOST OAK_MOST_ENTRIES
static uint8_t text[MOST], out[8 * MOST];
static uint32_t words[MOST];

static void fail(const char *what)
{
    fprintf(stderr, "drive: %s\n", what);
    exit(1);
}

/* ---- the texts: what each form reads, and but for the last two the GNU C library reads alike */

static uint32_t seed = 1;

static unsigned any(unsigned n)
{
    seed = seed * 1664525u + 1013904223u;
    return (seed >> 8) % n;
}

static size_t ascii(uint8_t *e)
{
    static const char letters[] = "etaoinshrdlu etaoinshrdlu ABCDEFGHIJKLMNOPQRSTUVWXYZ abcdefghijklmnopqrstuvwxyz 0123456789 .,;:()-+/";
    e[0] = letters[any(sizeof letters - 1)];
    return 1;
}

static size_t pair(uint8_t *e)
{
    static const char *const followers[][2] = {
        {"\xC1", "AEIOUaeiou"}, {"\xC2", "ACEILNORSUYZaceilnorsuyz"}, {"\xC3", "ACEGHIJOSUWYaceghijosuwy"}, {"\xC4", "AINOUainou"},
        {"\xC5", "AEIOUaeiou"}, {"\xC6", "AGUagu"}, {"\xC7", "CEGIZcegz"}, {"\xC8", "AEIOUYaeiouy"}, {"\xCA", "AUau"},
        {"\xCB", "CGKLNRSTcklnrst"}, {"\xCD", "OUou"}, {"\xCE", "AEIUaeiu"}, {"\xCF", "CDELNRSTZcdelnrstz"},
    };
    unsigned i = any(sizeof followers / sizeof followers[0]);
    e[0] = followers[i][0][0];
    e[1] = followers[i][1][any(strlen(followers[i][1]))];
    return 2;
}

static size_t supplementary(uint8_t *e)
{
    static const uint8_t octets[] = {
        0xA1, 0xA2, 0xA3, 0xA5, 0xA7, 0xA8, 0xAB, 0xB0, 0xB1, 0xB2, 0xB3, 0xB4, 0xB5, 0xB6, 0xB7, 0xB8, 0xBB, 0xBC, 0xBD, 0xBE, 0xBF,
        0xE0, 0xE1, 0xE2, 0xE3, 0xE4, 0xE6, 0xE7, 0xE8, 0xE9, 0xEA, 0xEB, 0xEC, 0xED, 0xEE, 0xEF, 0xF0, 0xF1, 0xF2, 0xF3, 0xF4, 0xF5,
        0xF6, 0xF7, 0xF8, 0xF9, 0xFA, 0xFB, 0xFC, 0xFD, 0xFE,
    };
    e[0] = octets[any(sizeof octets)];
    return 1;
}

static size_t sequence(uint8_t *e)
{
    static const char *const some[] = {"\x9B" "4m", "\x9B" "0;1 p", "\x9B L", "\x9B" "12;999;;7h", "\x9B" "80;25H", "\x9Bm"};
    const char *s = some[any(sizeof some / sizeof some[0])];
    memcpy(e, s, strlen(s));
    return strlen(s);
}

/* The same in the upper half: behind 9B, each octet but the SPACE with its top bit set. */
static size_t upper_sequence(uint8_t *e)
{
    size_t n = sequence(e);
    for (size_t i = 1; i < n; i++)
        if (e[i] != ' ')
            e[i] |= 0x80;
    return n;
}

/* In forms 1 and 2 an accent that has an octet of its own, and in form 3 the number sign or the currency sign. */
static size_t not_canonical(int form, uint8_t *e)
{
    static const uint8_t accents[] = {0xC1, 0xC3, 0xC4};
    e[0] = form == 3 ? 0x23 + any(2) : accents[any(sizeof accents)];
    e[1] = 0x20;
    return form == 3 ? 1 : 2;
}

static size_t element(const char *name, int form, size_t i, uint8_t *e)
{
    if (strcmp(name, "ascii") == 0)
        return ascii(e);
    if (strcmp(name, "nine-to-one") == 0)
        return i % 10 == 9 ? pair(e) : ascii(e);
    if (strcmp(name, "pairs") == 0)
        return pair(e);
    if (strcmp(name, "supplementary") == 0)
        return supplementary(e);
    if (strcmp(name, "sequences") == 0)
        return sequence(e);
    if (strcmp(name, "upper-sequences") == 0)
        return upper_sequence(e);
    if (strcmp(name, "not-canonical") == 0)
        return i % 10 == 9 ? not_canonical(form, e) : ascii(e);
    fail("no such text");
    return 0;
}

/* Whole elements, and then letters up to the size asked for. Form 2 has SS2 before the low seven bits of a supplementary octet. */
static void make(const char *name, int form, size_t size)
{
    size_t at = 0;
    for (size_t i = 0;; i++) {
        uint8_t e[16];
        size_t n = element(name, form, i, e);
        if (form == 2 && e[0] >= 0x80) {
            memmove(e + 1, e, n++);
            e[0] = 0x19;
            e[1] -= 0x80;
        }
        if (size - at < n)
            break;
        memcpy(text + at, e, n);
        at += n;
    }
    memset(text + at, 'a', size - at);
}

/* ---- the jobs */

static void expect(size_t number)
{
    if (number != OAK_ACCEPTED)
        fail("refused");
}

/* The page in pieces of one size; the words of all of them stand one after another. */
static void feed(int form, size_t size, size_t piece)
{
    struct oak_carry carry = oak_fresh(form).carry;
    size_t at = 0, handed = 0;
    do {
        size_t n = size - at < piece ? size - at : piece;
        const struct oak_fed fed = oak_feed(carry, text + at, n, at + n == size, words + handed, MOST - handed);
        expect(fed.answer.number);
        carry = fed.carry;
        at += n;
        handed += fed.handed;
    } while (at < size);
}

/* The text element by element; the words of all of them stand one after another. */
static void go_through(int form, size_t size)
{
    size_t at = 0, count = 0;
    while (at < size) {
        const struct oak_reading e = oak_element(form, text, size, at, words + count, MOST - count);
        expect(e.number);
        at = e.place;
        count += e.count;
    }
}

/* So many rounds of the text beside another that means the same. */
static void compare(int form, size_t size, size_t other_size, int rounds)
{
    while (rounds-- > 0) {
        const struct oak_comparison c = oak_compare(form, text, size, out, other_size);
        if (c.number != 0 || c.same != 1)
            fail("refused, or not the same");
    }
}

/* So many rounds of iconv over a whole input; how many octets it put out. */
static size_t recode(const char *from, const char *to, void *input, size_t size, void *output, size_t room, int rounds)
{
    iconv_t cd = iconv_open(to, from);
    if (cd == (iconv_t)-1)
        fail("iconv has no such converter");
    size_t left_out = room;
    while (rounds-- > 0) {
        char *in = input, *next = output;
        size_t left = size;
        left_out = room;
        if (iconv(cd, &in, &left, &next, &left_out) == (size_t)-1 || left != 0)
            fail("iconv refused");
    }
    return room - left_out;
}

int main(int argc, char **argv)
{
    if (argc != 5)
        fail("JOB TEXT OCTETS ROUNDS");
    const char *job = argv[1];
    size_t size = strtoul(argv[3], NULL, 10);
    int rounds = atoi(argv[4]);
    const char *digit = strpbrk(job, "123");
    if (size > MOST || digit == NULL)
        fail("JOB TEXT OCTETS ROUNDS");
    int form = *digit - '0';
    make(argv[2], form, size);
    if (strncmp(job, "read", 4) == 0)
        for (int i = 0; i < rounds; i++)
            expect(oak_read(form, text, size, words, MOST).number);
    else if (strncmp(job, "element", 7) == 0)
        for (int i = 0; i < rounds; i++)
            go_through(form, size);
    else if (strncmp(job, "feed", 4) == 0)
        for (int i = 0; i < rounds; i++)
            feed(form, size, strtoul(digit + 2, NULL, 10));
    else if (strncmp(job, "write", 5) == 0) {
        struct oak_reading a = oak_read(form, text, size, words, MOST);
        expect(a.number);
        for (int i = 0; i < rounds; i++)
            expect(oak_write(form, words, a.count, out, sizeof out).number);
    } else if (strncmp(job, "list", 4) == 0) {
        size_t n = strtoul(digit + 2, NULL, 10);
        struct oak_reading a = oak_read(form, text, size, words, MOST);
        expect(a.number);
        if (a.count < n)
            fail("too few words");
        for (int i = 0; i < rounds; i++)
            expect(oak_write(form, words, n, out, sizeof out).number);
    } else if (strncmp(job, "convert", 7) == 0)
        for (int i = 0; i < rounds; i++)
            expect(oak_convert(form, digit[2] - '0', text, size, out, sizeof out).number);
    else if (strncmp(job, "compare", 7) == 0) {
        memcpy(out, text, size);
        compare(form, size, size, rounds);
    } else if (strncmp(job, "respelt", 7) == 0) {
        struct oak_reading a = oak_convert(form, form, text, size, out, sizeof out);
        expect(a.number);
        compare(form, size, a.count, rounds);
    } else if (strncmp(job, "iconv-words", 11) == 0) {
        const char *name = digit + 2;
        size_t n = recode(name, "WCHAR_T", text, size, words, sizeof words, 1);
        recode("WCHAR_T", name, words, n, out, sizeof out, rounds);
    } else if (strncmp(job, "iconv", 5) == 0) {
        char *from = argv[1] + (digit - job) + 2, *to = strchr(from, ':');
        *to++ = 0;
        recode(from, to, text, size, out, sizeof out, rounds);
    } else
        fail("no such job");
    return 0;
}
