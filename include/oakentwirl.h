/*
 * Oakentwirl: teletex text and the TLX case, read, written, converted and compared. For C11 and C++11, on x86-64 Linux.
 *
 * Text has one of three forms. It means a list of 32-bit words, one or more an element; OAK_IS_UNDERLINED and the macros beside it
 * take a word apart. No function guesses: input that is not of the form is refused with a number, and the places that the number
 * carries say where. Each function's answer, and every entry of each buffer after it, is proved for every input.
 *
 * Some elements have more than one spelling in a form, and each has one that is canonical, which oak_write gives. Every spelling is read;
 * how many were not canonical is said beside the other numbers, and oak_element says it of one.
 *
 * What a caller keeps:
 *   - A pointer is to as many entries as the length after it says, and a pointer to words is aligned as a uint32_t. Nothing tests it:
 *     a wrong length or a stray pointer is read, and written, as in any C function.
 *   - A null pointer goes with the length 0 only, and then is an empty buffer. With another length it is a stray pointer.
 *   - The buffer that is written overlaps no other buffer of the call. Where it does, nothing is promised: neither the answer, nor
 *     what the buffers hold, nor that memory beyond them is left alone. Buffers that are only read may overlap.
 *
 * What a caller gets: a buffer that is lent as const is never written. A refusal writes nothing to any buffer. An accepted call
 * writes the first `count` entries of its buffer and leaves the others as they were. The functions ask for no memory and keep
 * nothing between two calls, so that any number of threads may call them at once.
 *
 * The one exception is oak_feed, which takes a page in pieces: a call that meets a fault in the page has written the words before
 * the fault, and the `count` of an accepted call is of words since the page was made fresh. Accepted or refused, oak_feed writes the
 * first `handed` entries of its buffer and leaves the others as they were.
 *
 * To find how large a buffer must be, lend one of length 0: the answer is OAK_SHORT_ROOM with the room needed as `count`, or
 * OAK_ACCEPTED where nothing is to be written, or a refusal that no room would alter. Of oak_feed any answer but OAK_SHORT_ROOM gives a
 * carry that has taken the piece, or that goes no further: offer the piece again with the earlier carry only. Reading a text or a case
 * never needs more words than it has octets; a piece of a page, than it has octets and OAK_MOST_HELD more; one element, than
 * OAK_MOST_WORDS.
 */
#ifndef OAKENTWIRL_H
#define OAKENTWIRL_H

#include <stddef.h>
#include <stdint.h>

#ifdef __cplusplus
static_assert(sizeof(size_t) == 8, "the library is made for 64 bits");
extern "C" {
#else
_Static_assert(sizeof(size_t) == 8, "the library is made for 64 bits");
#endif

/*
 * The version of this header, and of the library that goes with it. The major number changes where what a function takes or gives has
 * another layout: then every caller is compiled anew. Nothing tests it: an old caller that is linked with a new library reads wrong
 * numbers, and results are written past the room that it has for them. The minor number changes where answers change and the layout does
 * not. What came before 2.0 had no number, and counts as 1. (OAK_VERSION, below, is another thing: the refusal of a case by its version.)
 */
#define OAK_VERSION_MAJOR 2
#define OAK_VERSION_MINOR 1

/* The forms of text. */
enum {
    OAK_EIGHT_BITS = 1, /* T51String in eight bits */
    OAK_SEVEN_BITS = 2, /* T51String in seven bits, supplementary characters through SS2 */
    OAK_BASIC      = 3  /* basic T.61, with underline, controls and control sequences */
};

/* The most entries of a text, of a list of words or of a page in pieces; the most pages of a case; the most octets of a page of a case. */
#define OAK_MOST_ENTRIES 1048576
#define OAK_MOST_PAGES 256
#define OAK_MOST_OCTETS 65535

/* The most octets of an unfinished element that wait from one piece of a page to the next. */
#define OAK_MOST_HELD 39

/* The most words of one element: the first word of a control sequence, and 8 values. */
#define OAK_MOST_WORDS 9

/*
 * Every answer's `number`: what it means; what `element`, `place` and `count` are with it; and what a caller does next.
 *
 * `element` is the number of elements before the refused one for 1 to 8 and 10, and 0 for 9 and from 11 on; of oak_element it is 0 in
 * every refusal. "First" is the place of the refused element's first octet, "deciding" that of the octet that decided. In a refused page
 * of a case both are counted from the page's start, and so they are in a page that comes in pieces; of oak_compare, in the text that
 * `text` says; of oak_element, from the start of the whole text. Where place and count are not named, they are 0.
 */
enum {
    /* All is well. element: elements (0 of oak_case_write); place: input length; count: entries written. Next: use those.
       oak_element: 1, the place after the element, and its words. Next: use those, and ask again at `place`. Or zeros: no element is left.
       oak_fresh: zeros. Next: feed the first piece.
       oak_feed: elements, octets taken and words since fresh. Next: use the words handed out, and feed the next piece, unless the page
       ended with this one.
       oak_compare: the texts are compared, whether they mean the same or not. element: where they differ, or how many they have; place,
       count: 0. Next: look at `same`. */
    OAK_ACCEPTED = 0,
    /* An octet begins nothing in the form, or codes nothing after SS2. place: first; count: deciding.
       Next: name it, or try another form. */
    OAK_BEGINS_NOTHING = 1,
    /* 0E, 0F, 1B, 1D, or 19 in forms 1 and 3: other alphabets are not read. place, count: that octet. Next: name it. */
    OAK_ESCAPE = 2,
    /* What follows a mark is not its listed follower, or what follows CC may not. place: first; count: deciding. Next: name the octet.
       Small g with cedilla, U+0123, is C2 67 (form 2: 19 42 67), as Annex A of T.51 codes it; CB 67 (19 4B 67) is this refusal. */
    OAK_NOT_A_FOLLOWER = 3,
    /* The input ends inside an element. place: first; count: input length. Next: fetch the rest, or keep what stands before `place`.
       oak_feed: only where it is told that the page ends; it is final, and no rest can follow; the words before it are handed out. */
    OAK_CUT_SHORT = 4,
    /* An octet of 80 or above in form 2. place: first; count: deciding. Next: read it as form 1 or 3, or name the octet. */
    OAK_HIGH_OCTET = 5,
    /* An octet that is not allowed at this point of a control sequence, where A1 to FE, behind the 9B, count as 21 to 7E, and A0 and FF are
       never allowed. place: its 9B; count: deciding. Next: name the octet. */
    OAK_NOT_ALLOWED = 6,
    /* The digit that passes 999, or the 3B or BB that opens a ninth value of a sequence. place: its 9B; count: deciding. Next: name the
       octet. */
    OAK_PASSES_LIMIT = 7,
    /* The 40th octet of a control sequence is not its final. place: its 9B; count: deciding. Next: name the octet. */
    OAK_FORTIETH = 8,
    /* The lent room is short. count: the room needed, in entries. Next: lend that much and ask again.
       oak_feed: the room for what this call would hand out. Next: offer the same piece again. */
    OAK_SHORT_ROOM = 9,
    /* An element that the form lacks, or words that are none. place: its first word (oak_convert: octet).
       Next: replace it, or take another form. */
    OAK_NOT_HELD = 10,
    /* The form is not 1, 2 or 3: the source, the target, or the octet in the case. Next: give one that is; such a case is not read.
       oak_feed: or the carry's fields are found to contradict each other. Next: make it fresh. */
    OAK_NO_FORM = 11,
    /* More than OAK_MOST_ENTRIES entries of input; not asked of a case. Next: ask for it in parts, each of whole elements.
       oak_feed: so many octets since fresh, with this piece's, which is not read; an element that waited is given up. Next: make it
       fresh, for the next part; with the carry from before this call a smaller piece, or the end, may still be fed.
       oak_compare: in the text that `text` says. Next: compare in parts of whole elements, each but the last with as many elements of the
       one text as of the other. */
    OAK_TOO_LONG = 12,
    /* Fewer than 8 octets, or they do not begin with 54 4C 58. Next: it is no TLX case. */
    OAK_NO_CASE = 13,
    /* The version of the case is not 1. Next: it is not read. */
    OAK_VERSION = 14,
    /* Over 256 pages, a wrong size, or (written) a length over 65535. Next: fetch the whole case, or mend the lengths. */
    OAK_SIZE = 15
};

/* The four numbers of an answer. */
struct oak_answer {
    size_t number, element, place, count;
};

/*
 * The four numbers of a reading or a conversion, and respelled: how many of the elements did not stand in their canonical spelling, in the
 * form that they were read in. In every refusal, OAK_SHORT_ROOM too, it is 0. Not canonical are
 *   - in form 1 C1 20, C3 20 and C4 20, in form 2 19 41 20, 19 43 20 and 19 44 20: canonical are 60, 5E and 7E;
 *   - in form 3 23 and 24, by themselves or after CC: canonical are A6 and A8 (and C1 20, C3 20 and C4 20 are);
 *   - a control sequence with a value that begins with the digit 0: canonically 0 has no digits, and no value has leading zeros;
 *   - a control sequence with any octet, behind its 9B, in the upper half, A1 to FE: canonical is the octet 80 (hex) below, which it means.
 *
 * A conversion counts what was not canonical in the source form, whatever the target. Within one form these are the elements whose octets
 * it altered. Between two forms other elements may get other octets too, and one that is counted may keep its own: 23 of form 3 is counted,
 * and is 23 in form 1. Where none is counted, and only there, converting back, within the limit, gives the text octet for octet. Where some
 * are, their spellings cannot be had back: who may be asked for them keeps the text as it came, and finds them in it by oak_element. The
 * number adds up: two accepted texts, one behind the other, have the sum of both.
 */
struct oak_reading {
    size_t number, element, place, count, respelled;
};

/* The same of a case, with the sum over its pages, and the page that is refused, counted from 0; it is 0 in every other answer. */
struct oak_case_answer {
    size_t number, element, place, count, respelled, page;
};

/*
 * A page that comes in pieces, as off a serial lead: what goes from one call to the next. Its fields are not for callers. Keep the carry
 * that a call gave, and hand it in with the next piece; one from an earlier call goes on from where it stood then. Every carry gets an
 * answer, also one that no call gave: OAK_NO_FORM where it has no form, such as all zeros, or its fields are found to contradict each
 * other; else they are believed.
 */
struct oak_carry {
    struct oak_answer answer;
    size_t respelled, holds;
    uint32_t form, stopped;
    uint8_t held[OAK_MOST_HELD];
};

/* What oak_fresh and oak_feed give: the carry for the next call, the five numbers, and how many words were handed out. */
struct oak_fed {
    struct oak_carry carry;
    struct oak_reading answer;
    size_t handed;
};

/*
 * What oak_compare says of two texts: eleven numbers.
 *
 * Refused: number to count are what oak_read gives of the refused text, with room enough, and text is 1 or 2, which of the two it was, or
 * 0 where it is the form (OAK_NO_FORM). same, the two places and otherwise are 0.
 *
 * Compared: number, place, count and text are 0. Two elements are the same where oak_read gives the same words of both.
 *   - same is 1: both texts mean the same. element is the number of elements that each has, and first_place and second_place are the
 *     texts' lengths. otherwise is the number of elements spelled otherwise: those whose octets in the one text are not their octets in
 *     the other. Where it is 0, the texts are the same octets.
 *   - same is 0: they do not. element is the number of elements that stand before the first that differs, or that one text alone has;
 *     first_place and second_place are where that element begins in each, and of a text that has ended, its length. otherwise is 0.
 *
 * tail_text, 1 or 2, and tail_place say where the part begins that is handed back; it goes to the end of that text.
 *   - They differ before either ends: the part is the first text's, from the differing element on.
 *   - The second ends first (second_place is its length): what the first has more. tail_text is 1.
 *   - The first ends first (first_place is its length): what the second has more. tail_text is 2, and in no other case.
 *   - Both mean the same, or the call is refused: nothing, at the end of the first.
 */
struct oak_comparison {
    size_t number, element, place, count;
    size_t text;
    size_t same;
    size_t first_place, second_place, otherwise;
    size_t tail_text, tail_place;
};

/*
 * Words. A graphic character is its code point, plus OAK_UNDERLINED if it is underlined. A control is OAK_CONTROL and its octet. A
 * control sequence is a first word, with its final octet, 40 to 7E, and its intermediate octet, 20 to 2F or 0 if none, whichever half they
 * stood in, and the number of its values, 1 to 8; the values, each at most 999, are the words after it. Step over them: a value is no
 * element, and the macros below say nothing of it.
 */
#define OAK_UNDERLINED ((uint32_t)0x01000000)
#define OAK_CONTROL ((uint32_t)0x02000000)
#define OAK_SEQUENCE ((uint32_t)0x04000000)

/* What an element's first word is. */
#define OAK_IS_GRAPHIC(word) ((uint32_t)(word) < OAK_CONTROL)
#define OAK_IS_UNDERLINED(word) ((uint32_t)(word) >> 24 == 1)
#define OAK_IS_CONTROL(word) ((uint32_t)(word) >> 24 == 2)
#define OAK_IS_SEQUENCE(word) ((uint32_t)(word) >> 24 == 4)

/* Of a graphic character, its code point; of a control, its octet; of a sequence, its parts. */
#define OAK_CODE_POINT(word) ((uint32_t)(word) & 0xFFFFFF)
#define OAK_CONTROL_OCTET(word) ((uint32_t)(word) & 0xFF)
#define OAK_INTERMEDIATE(word) ((uint32_t)(word) >> 16 & 0xFF)
#define OAK_FINAL(word) ((uint32_t)(word) >> 8 & 0xFF)
#define OAK_VALUES(word) ((uint32_t)(word) & 0xFF)

/* The first word of a sequence: its intermediate octet or 0, its final octet, and the number of values that follow. */
#define OAK_SEQUENCE_OF(intermediate, final, values) \
    (OAK_SEQUENCE + ((uint32_t)(intermediate) << 16) + ((uint32_t)(final) << 8) + (uint32_t)(values))

/*
 * Reads a text of the form into words; respelled is how many of its elements are not canonical. Refused with 11, 12, 1 to 8, 9: the first
 * that holds, in this order.
 */
struct oak_reading oak_read(uint32_t form, const uint8_t *text, size_t text_len, uint32_t *words, size_t words_len);

/*
 * Reads the one element that begins at the place `at` of a text. Asked at 0, and then each time at the `place` that it gave, it goes
 * through the text. respelled is 1 where the element is not canonical, else 0. Its octets are those from `at` up to `place`, and
 * oak_convert of them alone, within the form, gives its canonical spelling. At the end of the text and past it no element is left, and all
 * five numbers are 0: `element`, which is 1 of an element, tells the two apart. What stands before `at` is not looked at: asked inside an
 * element, it reads what stands there as if one began there. Refused with 11, 12, 1 to 8, 9.
 */
struct oak_reading oak_element(uint32_t form, const uint8_t *text, size_t text_len, size_t at, uint32_t *words, size_t words_len);

/* Makes a page fresh: a carry that holds no octets and has read no elements. Hands out nothing. Refused with 11. */
struct oak_fed oak_fresh(uint32_t form);

/*
 * Takes the next piece of a page, which may be empty, and hands out the words of the elements that it finishes. `ended` is 0 where more
 * is to come, and anything else where the page ends with this piece. However a page within OAK_MOST_ENTRIES is cut, the words handed out
 * are those of its elements up to its end or its first fault, and its last answer is oak_read's of the whole page, with room enough. Of
 * a longer one, the words are those of the whole elements before the piece that passes the limit, unless a fault comes first. Before the
 * end, respelled is of the elements since fresh that are whole.
 *
 * A buffer of piece_len + OAK_MOST_HELD words is always large enough. Where it is short, nothing is handed out and the carry is as it
 * was: the same piece can be offered again. Any other refusal, and the answer at the end, is repeated by each call with its carry, which
 * hands out nothing, until oak_fresh makes a page fresh. Refused with 11, what is repeated, 12, 9 (even where a fault follows), 1 to 8.
 */
struct oak_fed oak_feed(struct oak_carry carry, const uint8_t *piece, size_t piece_len, uint32_t ended, uint32_t *words,
                        size_t words_len);

/* Writes words as text of the form, each element in its one canonical spelling. Refused with 11, 12, 10, 9. */
struct oak_answer oak_write(uint32_t form, const uint32_t *words, size_t words_len, uint8_t *text, size_t text_len);

/*
 * Converts a text from one form to another, or, where both are the same, to its canonical spelling. respelled is how many of its elements
 * are not canonical in the source form: what oak_read says of the text. Refused with 11, 12, 1 to 8, 10, 9.
 */
struct oak_reading oak_convert(uint32_t source, uint32_t target, const uint8_t *text, size_t text_len, uint8_t *out, size_t out_len);

/*
 * Says what changed between two texts of one form: the element at which what they mean first differs, or how many elements are spelled
 * otherwise. Nothing is written, and the texts may overlap or be one buffer. Refused with 11, 12 of the first, 12 of the second, 1 to 8 of
 * the first, 1 to 8 of the second.
 */
struct oak_comparison oak_compare(uint32_t form, const uint8_t *first, size_t first_len, const uint8_t *second, size_t second_len);

/*
 * Reads the pages of a TLX case into words, one page after another; respelled is how many elements of all pages are not canonical. Refused
 * with 13, 14, 11, 15, 1 to 8 of the first such page, 9.
 */
struct oak_case_answer oak_case_read(const uint8_t *tlx, size_t tlx_len, uint32_t *words, size_t words_len);

/* Writes a TLX case from the form, the length of each page and the octets of all pages, which are not read. Refused with 11, 15, 9. */
struct oak_answer oak_case_write(uint32_t form, const uint32_t *lengths, size_t pages, const uint8_t *octets, size_t octets_len,
                                 uint8_t *tlx, size_t tlx_len);

#ifdef __cplusplus
}
#endif

#endif
