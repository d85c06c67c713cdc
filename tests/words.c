/* What the header says of words, held against words of document 01's readings while this is compiled, as C11 and as C++11. */
#include <assert.h>

#include "oakentwirl.h"

/* CC 41: an underlined A */
static_assert(OAK_IS_GRAPHIC(16777281) && OAK_IS_UNDERLINED(16777281), "underlined");
static_assert(!OAK_IS_CONTROL(16777281) && !OAK_IS_SEQUENCE(16777281), "underlined, and nothing else");
static_assert(OAK_CODE_POINT(16777281) == 0x41 && OAK_UNDERLINED + 0x41 == 16777281, "its code point");

/* C2 65: U+00E9, not underlined */
static_assert(OAK_IS_GRAPHIC(233) && !OAK_IS_UNDERLINED(233) && OAK_CODE_POINT(233) == 0xE9, "graphic");
static_assert(!OAK_IS_CONTROL(233) && !OAK_IS_SEQUENCE(233), "graphic, and nothing else");

/* 8B, a control of form 3 */
static_assert(OAK_IS_CONTROL(OAK_CONTROL + 0x8B) && OAK_CONTROL_OCTET(OAK_CONTROL + 0x8B) == 0x8B, "control");
static_assert(!OAK_IS_GRAPHIC(OAK_CONTROL + 0x8B) && !OAK_IS_UNDERLINED(OAK_CONTROL + 0x8B), "control, and no graphic");
static_assert(!OAK_IS_SEQUENCE(OAK_CONTROL + 0x8B), "control, and no sequence");

/* 9B 34 6D, with one value; 9B 20 4C, with an intermediate; 9B 3B 6D, with two values */
static_assert(OAK_SEQUENCE_OF(0, 0x6D, 1) == 67136769 && OAK_SEQUENCE_OF(0x20, 0x4C, 1) == 69225473, "made");
static_assert(OAK_SEQUENCE_OF(0, 0x6D, 2) == 67136770 && OAK_VALUES(67136770) == 2, "two values");
static_assert(OAK_IS_SEQUENCE(67136769) && OAK_IS_SEQUENCE(69225473), "sequences");
static_assert(!OAK_IS_GRAPHIC(69225473) && !OAK_IS_UNDERLINED(69225473) && !OAK_IS_CONTROL(69225473), "and nothing else");
static_assert(OAK_INTERMEDIATE(67136769) == 0 && OAK_INTERMEDIATE(69225473) == 0x20, "intermediates");
static_assert(OAK_FINAL(67136769) == 0x6D && OAK_FINAL(69225473) == 0x4C && OAK_VALUES(69225473) == 1, "finals");

/* A sequence with all its eight values is the longest element. */
static_assert(OAK_MOST_WORDS == 1 + OAK_VALUES(OAK_SEQUENCE_OF(0, 0x6D, 8)), "the most words");

/* The answers and comparisons are as the library lays them out, and so is a carry, up to its last octet. */
static_assert(sizeof(struct oak_answer) == 32 && sizeof(struct oak_reading) == 40, "answers");
static_assert(offsetof(struct oak_reading, respelled) == 32 && offsetof(struct oak_case_answer, respelled) == 32, "the fifth number");
static_assert(offsetof(struct oak_case_answer, page) == 40 && sizeof(struct oak_case_answer) == 48, "a case's answer");
static_assert(offsetof(struct oak_carry, respelled) == 32 && offsetof(struct oak_carry, holds) == 40, "a carry's counts");
static_assert(offsetof(struct oak_carry, form) == 48 && offsetof(struct oak_carry, stopped) == 52, "a carry's form");
static_assert(offsetof(struct oak_carry, held) == 56 && sizeof(struct oak_carry) == 96, "a carry's octets");
static_assert(offsetof(struct oak_fed, answer) == 96 && offsetof(struct oak_fed, handed) == 136 && sizeof(struct oak_fed) == 144, "fed");
static_assert(offsetof(struct oak_comparison, text) == 32 && offsetof(struct oak_comparison, same) == 40, "a comparison's verdict");
static_assert(offsetof(struct oak_comparison, first_place) == 48 && offsetof(struct oak_comparison, second_place) == 56, "its places");
static_assert(offsetof(struct oak_comparison, otherwise) == 64 && offsetof(struct oak_comparison, tail_text) == 72, "its counts");
static_assert(offsetof(struct oak_comparison, tail_place) == 80 && sizeof(struct oak_comparison) == 88, "its tail");
