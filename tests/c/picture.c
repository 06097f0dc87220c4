/* A picture built by the header alone, and the call in all its answers: what is said in include/virdzeba.h is tried here. The
 * function is README's: it builds a message, and one of its branches puts it out. Prints how many checks passed; ends with 1 and
 * names those that did not.
 *
 *   cc -O2 -pthread -I include tests/c/picture.c target/lib/libvirdzeba.a -o picture */
#include <pthread.h>
#include <stdio.h>
#include <string.h>
#include "virdzeba.h"

#define MOST VIRDZEBA_REGISTERS, VIRDZEBA_OPERANDS /* lent, where nothing else is said */

/* ---- building */

struct built {
    uint32_t words[VIRDZEBA_RESULT / 4]; /* the picture, once it is put together */
    size_t len;                          /* its bytes */
    uint32_t bounds[2 * 3], records[VIRDZEBA_RECORD * 16], types[16];
    uint32_t blocks, instructions, registers;
};

/* An instruction at the end, with its first three registers; the rest of the record is the caller's to fill in. */
static uint32_t *add(struct built *f, uint32_t kind, uint32_t a, uint32_t b, uint32_t c)
{
    uint32_t *r = f->records + VIRDZEBA_RECORD * f->instructions++;
    memset(r, 0, VIRDZEBA_RECORD * sizeof *r);
    r[VIRDZEBA_WORD_KIND] = kind;
    r[VIRDZEBA_WORD_REGISTER] = a;
    r[VIRDZEBA_WORD_REGISTER + 1] = b;
    r[VIRDZEBA_WORD_REGISTER + 2] = c;
    r[VIRDZEBA_WORD_REGISTER + 3] = r[VIRDZEBA_WORD_REGISTER + 4] = VIRDZEBA_ABSENT;
    return r;
}

/* A block that begins where the last one ended, of all instructions since. */
static void ends(struct built *f)
{
    f->bounds[2 * f->blocks] = f->blocks ? f->bounds[2 * f->blocks - 1] : 0;
    f->bounds[2 * f->blocks + 1] = f->instructions;
    f->blocks++;
}

static void part(struct built *f, const uint32_t *words, size_t n)
{
    memcpy((char *)f->words + f->len, words, 4 * n);
    f->len += 4 * n;
}

/* All parts end to end: counts, bounds, records, locs, no vias, types; nothing else is there. */
static void together(struct built *f)
{
    static const uint32_t locs[16] = {0};
    uint32_t counts[VIRDZEBA_COUNTS] = {0};
    counts[VIRDZEBA_COUNT_BLOCKS] = f->blocks;
    counts[VIRDZEBA_COUNT_INSTRUCTIONS] = f->instructions;
    counts[VIRDZEBA_COUNT_REGISTERS] = f->registers;
    f->len = 0;
    part(f, counts, VIRDZEBA_COUNTS);
    part(f, f->bounds, 2 * f->blocks);
    part(f, f->records, VIRDZEBA_RECORD * f->instructions);
    part(f, locs, f->instructions);
    part(f, f->types, f->registers);
}

static void constant(struct built *f, uint32_t to, uint32_t value)
{
    add(f, VIRDZEBA_CONST, to, VIRDZEBA_ABSENT, VIRDZEBA_ABSENT)[VIRDZEBA_WORD_PAYLOAD] = value;
}

static void branch(struct built *f, uint32_t test, uint32_t yes, uint32_t no)
{
    uint32_t *r = add(f, VIRDZEBA_COND_BR, test, VIRDZEBA_ABSENT, VIRDZEBA_ABSENT);
    r[VIRDZEBA_WORD_PAYLOAD] = yes;
    r[VIRDZEBA_WORD_PAYLOAD + 1] = no;
    ends(f);
}

static void leave(struct built *f)
{
    add(f, VIRDZEBA_RET, VIRDZEBA_ABSENT, VIRDZEBA_ABSENT, VIRDZEBA_ABSENT);
    ends(f);
}

/* Eight instructions that make a message at r`at`; its six values are in these registers. */
static void message(struct built *f, uint32_t at, const uint32_t *to)
{
    int k;
    add(f, VIRDZEBA_ALLOC, at, 1, VIRDZEBA_ABSENT);
    for (k = 0; k < 6; k++)
        add(f, VIRDZEBA_CMP, to[k], 1, k ? to[k - 1] : 1);
    add(f, VIRDZEBA_CAT, at, 1, 1)[VIRDZEBA_WORD_FORM] = VIRDZEBA_CAT_BYTES;
}

/* The function before the pass, or after it: then the message is made in block 1, in new registers. */
static void build(struct built *f, int after)
{
    static const uint32_t old[6] = {3, 4, 5, 6, 7, 8}, made[6] = {10, 11, 10, 11, 10, 11};
    memset(f, 0, sizeof *f);
    f->registers = after ? 12 : 9;
    f->types[2] = VIRDZEBA_TYPE_PTR;
    f->types[9] = VIRDZEBA_TYPE_PTR;
    constant(f, 1, 8);
    if (!after)
        message(f, 2, old);
    branch(f, 0, 1, 2);
    if (after)
        message(f, 9, made);
    add(f, VIRDZEBA_OUTPUT, after ? 9 : 2, 1, VIRDZEBA_ABSENT);
    leave(f);
    leave(f);
    together(f);
}

/* ---- trying */

static struct built before, after;
static uint8_t result[VIRDZEBA_RESULT + 1];
static int passed, failures;

static void expect(int holds, const char *what)
{
    if (holds)
        passed++;
    else {
        failures++;
        fprintf(stderr, "picture.c: not so: %s\n", what);
    }
}

/* The answer to these bytes, and whether the result then holds these words and nothing else was written; NULL for none at all. */
static int gives(const void *picture, size_t len, size_t room, uint32_t registers, uint32_t operands, uint32_t answer,
                 const struct built *left)
{
    size_t k, n = left ? left->len : 0;
    memset(result, 0xa5, sizeof result);
    if (virdzeba_sink((const uint8_t *)picture, len, result, room, registers, operands) != answer)
        return 0;
    for (k = n; k < sizeof result; k++)
        if (result[k] != 0xa5)
            return 0;
    return !left || (virdzeba_length(result) == n && memcmp(result, left->words, n) == 0);
}

static int sunk(const struct built *f, uint32_t registers, uint32_t answer, const struct built *left)
{
    return gives(f->words, f->len, VIRDZEBA_RESULT, registers, VIRDZEBA_OPERANDS, answer, left);
}

/* The same function with one word of a record made another. */
static int altered(uint32_t instruction, uint32_t word, uint32_t value, uint32_t answer)
{
    static struct built f;
    build(&f, 0);
    f.records[VIRDZEBA_RECORD * instruction + word] = value;
    together(&f);
    return sunk(&f, VIRDZEBA_REGISTERS, answer, answer < VIRDZEBA_REFUSED ? &f : NULL);
}

static void answers(void)
{
    static struct built f;
    expect(sunk(&before, VIRDZEBA_REGISTERS, VIRDZEBA_DONE + 1, &after), "one round, and the message in block 1");
    expect(sunk(&before, 12, VIRDZEBA_DONE + 1, &after), "the same with just enough registers");
    expect(sunk(&before, 11, VIRDZEBA_SHORT, &before), "short with one register less");
    expect(sunk(&after, VIRDZEBA_REGISTERS, VIRDZEBA_DONE, &after), "nothing is left to move");
    expect(altered(8, VIRDZEBA_WORD_FORM, VIRDZEBA_CAT_LOGIC, VIRDZEBA_DONE), "no Cat of form 0: a gate");
    expect(sunk(&before, 8, VIRDZEBA_REFUSED_ROOM, NULL), "more registers in use than lent");
    build(&f, 0);
    f.words[VIRDZEBA_COUNT_VIA_WORDS] = 1;
    f.words[f.len / 4] = 0;
    f.len += 4;
    expect(sunk(&f, VIRDZEBA_REGISTERS, VIRDZEBA_REFUSED_UNEVEN, NULL), "one via word for 13 instructions");
    build(&f, 0);
    f.bounds[2]++;
    together(&f);
    expect(sunk(&f, VIRDZEBA_REGISTERS, VIRDZEBA_REFUSED_BLOCKS, NULL), "a gap between blocks");
    expect(altered(0, VIRDZEBA_WORD_KIND, VIRDZEBA_STMT + 1, VIRDZEBA_REFUSED_KIND), "kind 101");
    expect(altered(2, VIRDZEBA_WORD_REGISTER + 1, VIRDZEBA_ABSENT, VIRDZEBA_REFUSED_SLOT), "a Cmp of one register");
    expect(altered(2, VIRDZEBA_WORD_LENGTH, 1, VIRDZEBA_REFUSED_LIST), "a Cmp with a list");
    expect(altered(9, VIRDZEBA_WORD_PAYLOAD, 3, VIRDZEBA_REFUSED_BRANCH), "a branch to block 3 of 3");
    build(&f, 0);
    f.records[VIRDZEBA_RECORD * 8 + VIRDZEBA_WORD_LENGTH] = 34;
    together(&f);
    f.words[VIRDZEBA_COUNT_OPERANDS] = 34;
    memset((char *)f.words + f.len, 0, 4 * 34);
    f.len += 4 * 34;
    expect(sunk(&f, VIRDZEBA_REGISTERS, VIRDZEBA_REFUSED_CAT, NULL), "a Cat of 34 operands");
    build(&f, 0);
    f.types[3] = VIRDZEBA_TYPE_LAST + 1;
    together(&f);
    expect(sunk(&f, VIRDZEBA_REGISTERS, VIRDZEBA_REFUSED_TYPE, NULL), "type 8");
}

static void unread(void)
{
    const uint8_t *p = (const uint8_t *)before.words;
    uint32_t answer;
    expect(gives(p, before.len - 1, VIRDZEBA_RESULT, MOST, VIRDZEBA_UNREAD, NULL), "a byte too few");
    expect(gives(p, before.len + 1, VIRDZEBA_RESULT, MOST, VIRDZEBA_UNREAD, NULL), "a byte too many");
    expect(gives(p, before.len, VIRDZEBA_RESULT - 1, MOST, VIRDZEBA_UNREAD, NULL), "a result too small");
    expect(gives(p, before.len, VIRDZEBA_RESULT, VIRDZEBA_REGISTERS + 1, VIRDZEBA_OPERANDS, VIRDZEBA_UNREAD, NULL), "a register too many");
    expect(gives(p, before.len, VIRDZEBA_RESULT, VIRDZEBA_REGISTERS, VIRDZEBA_OPERANDS + 1, VIRDZEBA_UNREAD, NULL), "an operand too many");
    expect(gives(NULL, 0, VIRDZEBA_RESULT, MOST, VIRDZEBA_UNREAD, NULL), "no picture at NULL");
    answer = virdzeba_sink(p, before.len, NULL, 0, MOST);
    expect(answer == VIRDZEBA_UNREAD, "no result at NULL");
    answer = virdzeba_sink(NULL, 0, NULL, 0, 0, 0);
    expect(answer == VIRDZEBA_UNREAD, "neither");
}

/* Each size at its last number is looked at, and one past it is not; all of them together make the largest picture. */
static void sizes(void)
{
    static const uint32_t most[VIRDZEBA_COUNTS] = {VIRDZEBA_BLOCKS, VIRDZEBA_INSTRUCTIONS, VIRDZEBA_REGISTERS, VIRDZEBA_OPERANDS,
        VIRDZEBA_PAIR_WORDS, VIRDZEBA_TARGET_WORDS, VIRDZEBA_REPLAY_WORDS, VIRDZEBA_VIA_WORDS};
    static uint32_t words[VIRDZEBA_RESULT / 4 + 17];
    const uint8_t *p = (const uint8_t *)words;
    uint32_t answer;
    int k;
    memcpy(words, most, sizeof most);
    expect(virdzeba_length(p) == VIRDZEBA_RESULT, "the sizes make the largest picture");
    for (k = 0; k < VIRDZEBA_COUNTS; k++) {
        memset(words, 0, sizeof words);
        words[k] = most[k];
        answer = virdzeba_sink(p, virdzeba_length(p), result, VIRDZEBA_RESULT, MOST);
        expect(answer != VIRDZEBA_UNREAD, "a size at its last number is read");
        words[k]++;
        answer = virdzeba_sink(p, virdzeba_length(p), result, VIRDZEBA_RESULT, MOST);
        expect(answer == VIRDZEBA_UNREAD, "one past it is not");
    }
}

/* Bytes at odd places: no alignment is asked. */
static void odd(void)
{
    static uint8_t from[VIRDZEBA_RESULT + 1], into[VIRDZEBA_RESULT + 1];
    memcpy(from + 1, before.words, before.len);
    expect(virdzeba_sink(from + 1, before.len, into + 1, VIRDZEBA_RESULT, MOST) == VIRDZEBA_DONE + 1
        && memcmp(into + 1, after.words, after.len) == 0, "bytes at odd places");
}

/* Many calls in a thread with as much stack as the header says. */
static void *calls(void *into)
{
    const uint8_t *p = (const uint8_t *)before.words;
    uint8_t *bytes = (uint8_t *)into;
    int k, good = 1;
    for (k = 0; k < 2000; k++) {
        bytes[0] = 0;
        good &= virdzeba_sink(p, before.len, bytes, VIRDZEBA_RESULT, MOST) == VIRDZEBA_DONE + 1;
        good &= memcmp(bytes, after.words, after.len) == 0;
    }
    return good ? into : NULL;
}

static void threads(void)
{
    static uint8_t own[4][VIRDZEBA_RESULT];
    pthread_t thread[4];
    pthread_attr_t with;
    void *good;
    int k;
    k = pthread_attr_init(&with) || pthread_attr_setstacksize(&with, VIRDZEBA_STACK);
    expect(k == 0, "a thread of so much stack can be had");
    for (k = 0; k < 4; k++)
        expect(pthread_create(&thread[k], &with, calls, own[k]) == 0, "the thread starts");
    for (k = 0; k < 4; k++)
        expect(pthread_join(thread[k], &good) == 0 && good == own[k], "four threads at once, each on so much stack");
}

int main(void)
{
    build(&before, 0);
    build(&after, 1);
    expect(virdzeba_length((const uint8_t *)before.words) == before.len, "the length of a picture");
    answers();
    unread();
    sizes();
    odd();
    threads();
    printf("%d\n", passed);
    return failures != 0;
}
