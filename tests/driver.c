/*
 * Asks the library what standard input says, and writes its answers, with every lent buffer whole, to standard output.
 *
 *     driver middle|start|end
 *
 * The argument says where each buffer is laid: in the middle of readable memory, an empty one as a null pointer; right behind an
 * unreadable page; or right before one. So one octet too far to that side ends the run. The driver judges nothing: tests/library.py,
 * which has the form of questions and answers too, compares.
 */
#include <stddef.h>
#include <stdint.h>
#include <stdio.h>
#include <stdlib.h>
#include <string.h>
#include <sys/mman.h>

#include "oakentwirl.h"

/* Room for one word more than a text may have, in steps that are whole pages on every machine. */
#define STEP ((size_t)65536)
#define ROOM (66 * STEP)

enum ask { READ = 1, WRITE, CONVERT, CASE_READ, CASE_WRITE, LOOK_TOO_FAR, PUT_TOO_FAR, FRESH, CARRIED, EACH, COMPARE, OVERLAP, ELEMENTS };
enum side { MIDDLE, START, END };

struct question {
    uint32_t ask, form;
    uint32_t target; /* a form, or at how many places an element is read */
    uint32_t first;  /* octets or words of the text, or page lengths, or calls of a page that comes in pieces, or code points from 0 on */
    uint32_t second; /* octets of the pages that a case is written from, or of the second text that is compared */
    uint32_t room;   /* entries of the buffer that is written */
};

/* One call of a page that comes in pieces. */
struct call {
    uint32_t octets, ended, room;
};

struct buffer {
    void *start;
    size_t octets;
};

/* Room for one character's spelling, and for its word, with some over. */
#define SPELLING 8
#define WORDS 2

/* What is answered of one code point by itself: written; and where that is accepted, its octets read, and converted within the form. */
struct point {
    struct oak_answer written;
    struct oak_reading read, converted;
    uint8_t spelling[SPELLING], same[SPELLING];
    uint32_t words[WORDS];
};

/* Code points one after another that are answered alike. */
struct points {
    uint64_t first, last;
    struct point point;
};

/* What a carry has, without the octet at its end that no field has. */
#define CARRY (offsetof(struct oak_carry, held) + sizeof((struct oak_carry *)0)->held)

static void die(const char *why)
{
    fprintf(stderr, "driver: %s\n", why);
    exit(2);
}

/* Readable memory with an unreadable step on either side. */
static uint8_t *arena(void)
{
    uint8_t *memory = mmap(NULL, ROOM + 2 * STEP, PROT_NONE, MAP_PRIVATE | MAP_ANONYMOUS, -1, 0);
    if (memory == MAP_FAILED || mprotect(memory + STEP, ROOM, PROT_READ | PROT_WRITE) != 0)
        die("no memory");
    return memory + STEP;
}

/* A buffer of that many entries; in the middle, octets are laid at an odd address. */
static struct buffer lay(uint8_t *memory, enum side side, size_t entries, size_t width)
{
    size_t octets = entries * width;
    if (octets > ROOM - STEP)
        die("a buffer is too long");
    if (side == START)
        return (struct buffer){memory, octets};
    if (side == END)
        return (struct buffer){memory + ROOM - octets, octets};
    return (struct buffer){octets == 0 ? NULL : memory + STEP / 2 + width, octets};
}

static void take(struct buffer b)
{
    if (b.octets != 0 && fread(b.start, b.octets, 1, stdin) != 1)
        die("a question is cut short");
}

static void give(struct buffer b)
{
    if (b.octets != 0 && fwrite(b.start, b.octets, 1, stdout) != 1)
        die("the answers cannot be written");
}

/* No two entries near each other alike, so that one that was written, or moved, shows. */
static void fill(struct buffer b)
{
    uint8_t *octets = b.start;
    for (size_t i = 0; i < b.octets; i++)
        octets[i] = (uint8_t)(37 * i + 11);
}

/* Touches the octet beside the buffer, which must end the run. */
static void too_far(enum ask ask, enum side side, struct buffer b)
{
    volatile uint8_t *octets = b.start;
    ptrdiff_t beside = side == START ? -1 : (ptrdiff_t)b.octets;
    if (ask == LOOK_TOO_FAR)
        (void)octets[beside];
    else
        octets[beside] = 0;
}

static struct oak_case_answer with_page_0(struct oak_reading a)
{
    return (struct oak_case_answer){a.number, a.element, a.place, a.count, a.respelled, 0};
}

static struct oak_case_answer with_zeros(struct oak_answer a)
{
    return (struct oak_case_answer){a.number, a.element, a.place, a.count, 0, 0};
}

static struct oak_case_answer asked(const struct question *q, enum side side, struct buffer in, struct buffer more, struct buffer out)
{
    switch (q->ask) {
    case READ:
        return with_page_0(oak_read(q->form, in.start, q->first, out.start, q->room));
    case WRITE:
        return with_zeros(oak_write(q->form, in.start, q->first, out.start, q->room));
    case CONVERT:
        return with_page_0(oak_convert(q->form, q->target, in.start, q->first, out.start, q->room));
    case CASE_READ:
        return oak_case_read(in.start, q->first, out.start, q->room);
    case CASE_WRITE:
        return with_zeros(oak_case_write(q->form, in.start, q->first, more.start, q->second, out.start, q->room));
    case LOOK_TOO_FAR:
    case PUT_TOO_FAR:
        too_far(q->ask, side, out);
        break;
    }
    die("no such question");
    abort();
}

static void give_fed(struct oak_fed fed)
{
    give((struct buffer){&fed.carry, CARRY});
    give((struct buffer){&fed.answer, sizeof fed.answer});
    give((struct buffer){&fed.handed, sizeof fed.handed});
}

/* A page in pieces, made fresh here or with the carry that is given: each call has its piece and its words in buffers of their own. */
static void feed_all(const struct question *q, enum side side, uint8_t *ins, uint8_t *outs)
{
    struct oak_fed fed = {0};
    struct call c;

    if (q->ask == FRESH) {
        fed = oak_fresh(q->form);
        give_fed(fed);
    } else
        take((struct buffer){&fed.carry, CARRY});
    for (uint32_t i = 0; i < q->first; i++) {
        take((struct buffer){&c, sizeof c});
        struct buffer in = lay(ins, side, c.octets, 1);
        struct buffer out = lay(outs, side, c.room, sizeof(uint32_t));
        take(in);
        fill(out);
        fed = oak_feed(fed.carry, in.start, c.octets, c.ended, out.start, c.room);
        give_fed(fed);
        give(in);
        give(out);
    }
}

static void give_element(const struct question *q, struct buffer in, size_t at, struct buffer out)
{
    fill(out);
    struct oak_reading a = oak_element(q->form, in.start, q->first, at, out.start, q->room);
    give((struct buffer){&a, sizeof a});
    give(out);
}

/* One element at each of the first places of a text, and at the last place that there is. */
static void elements(const struct question *q, enum side side, uint8_t *ins, uint8_t *outs)
{
    struct buffer in = lay(ins, side, q->first, 1);
    struct buffer out = lay(outs, side, q->room, sizeof(uint32_t));
    take(in);
    for (size_t at = 0; at < q->target; at++)
        give_element(q, in, at, out);
    give_element(q, in, SIZE_MAX, out);
    give(in);
}

/* So many octets of a buffer's end, where they are. */
static struct buffer end_of(struct buffer b, size_t octets)
{
    if (octets > b.octets)
        die("an end is too long");
    return (struct buffer){b.start == NULL ? NULL : (uint8_t *)b.start + (b.octets - octets), octets};
}

/* Two texts, the second in a buffer of its own, or the end of the first. */
static void compare(const struct question *q, enum side side, uint8_t *ins, uint8_t *mores)
{
    struct buffer first = lay(ins, side, q->first, 1);
    take(first);
    struct buffer second = q->ask == OVERLAP ? end_of(first, q->second) : lay(mores, side, q->second, 1);
    if (q->ask == COMPARE)
        take(second);
    struct oak_comparison c = oak_compare(q->form, first.start, q->first, second.start, q->second);
    give((struct buffer){&c, sizeof c});
    give(first);
    give(second);
}

/* Octets that no character's spelling has, so that each one that was written shows. */
static void fill_unspelt(struct buffer b)
{
    uint8_t *octets = b.start;
    for (size_t i = 0; i < b.octets; i++)
        octets[i] = (uint8_t)(0x80 + i);
}

static struct point point_of(uint32_t form, uint32_t word, enum side side, uint8_t *ins, uint8_t *outs)
{
    struct point p = {0};
    struct buffer one = lay(ins, side, 1, sizeof word);
    struct buffer out = lay(outs, side, SPELLING, 1);
    memcpy(one.start, &word, sizeof word);
    fill_unspelt(out);
    p.written = oak_write(form, one.start, 1, out.start, SPELLING);
    memcpy(p.spelling, out.start, sizeof p.spelling);
    if (p.written.number != OAK_ACCEPTED)
        return p;

    size_t count = p.written.count < SPELLING ? p.written.count : SPELLING;
    struct buffer in = lay(ins, side, count, 1);
    struct buffer words = lay(outs, side, WORDS, sizeof word);
    if (count != 0)
        memcpy(in.start, p.spelling, count);
    fill_unspelt(words);
    p.read = oak_read(form, in.start, count, words.start, WORDS);
    memcpy(p.words, words.start, sizeof p.words);
    fill_unspelt(out);
    p.converted = oak_convert(form, form, in.start, count, out.start, SPELLING);
    memcpy(p.same, out.start, sizeof p.same);
    return p;
}

/* So many code points from 0 on, each by itself; those that are answered alike one after another are given once. */
static void each(const struct question *q, enum side side, uint8_t *ins, uint8_t *outs)
{
    struct points alike = {0};
    for (uint32_t word = 0; word < q->first; word++) {
        struct point p = point_of(q->form, word, side, ins, outs);
        if (word != 0 && memcmp(&p, &alike.point, sizeof p) != 0) {
            give((struct buffer){&alike, sizeof alike});
            alike.first = word;
        }
        alike.last = word;
        alike.point = p;
    }
    if (q->first != 0)
        give((struct buffer){&alike, sizeof alike});
}

static enum side side_of(int count, char **arguments)
{
    static const char *const names[] = {"middle", "start", "end"};
    for (int side = MIDDLE; count == 2 && side <= END; side++)
        if (strcmp(arguments[1], names[side]) == 0)
            return (enum side)side;
    die("middle, start or end");
    abort();
}

int main(int count, char **arguments)
{
    enum side side = side_of(count, arguments);
    uint8_t *ins = arena(), *mores = arena(), *outs = arena();
    struct question q;

    while (fread(&q, sizeof q, 1, stdin) == 1) {
        if (q.ask == FRESH || q.ask == CARRIED) {
            feed_all(&q, side, ins, outs);
            continue;
        }
        if (q.ask == ELEMENTS) {
            elements(&q, side, ins, outs);
            continue;
        }
        if (q.ask == EACH) {
            each(&q, side, ins, outs);
            continue;
        }
        if (q.ask == COMPARE || q.ask == OVERLAP) {
            compare(&q, side, ins, mores);
            continue;
        }
        size_t in_width = q.ask == WRITE || q.ask == CASE_WRITE ? sizeof(uint32_t) : 1;
        size_t out_width = q.ask == READ || q.ask == CASE_READ ? sizeof(uint32_t) : 1;
        struct buffer in = lay(ins, side, q.first, in_width);
        struct buffer more = lay(mores, side, q.second, 1);
        struct buffer out = lay(outs, side, q.room, out_width);
        take(in);
        take(more);
        fill(out);
        struct oak_case_answer a = asked(&q, side, in, more, out);
        give((struct buffer){&a, sizeof a});
        give(in);
        give(more);
        give(out);
    }
    return ferror(stdin) || fflush(stdout) != 0 ? 2 : 0;
}
