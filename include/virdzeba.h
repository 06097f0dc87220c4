/* Virdzeba for C and C++: one function, which moves the building of a message into the branch that needs it, and all that must be
 * known to call it. docs/REFERENCE.md says what the pass does and has a glossary; tests/c has two programs to start from.
 *
 * Link target/lib/libvirdzeba.a, which `make lib` writes (x86-64 Linux; README.md has the line).
 *
 * A picture is one function as a list of 32-bit words, little-endian, as x86-64 has them in memory: an array of uint32_t can be
 * lent as it is. Its parts lie end to end in this order:
 *
 *   8 words             the counts (enum virdzeba_count)
 *   2 a block           bounds: the number of the block's first instruction, and that behind its last. Block 0 starts at 0, each
 *                       other one where the one before ends, and the last ends at the count of instructions. Blocks may be empty
 *   16 an instruction   records (enum virdzeba_word), in order of blocks
 *   1 an instruction    locs: a word of the caller's for each instruction, which goes where the instruction goes
 *   via words           the same once more: one for each instruction, or none at all
 *   1 a register        types (enum virdzeba_type)
 *   1 an operand        operands: register numbers, in which the lists of records lie
 *   pair words          case tables, two words each: where the table's targets start in the target words, and how many they are
 *   target words        block numbers, of each table the default first
 *   replay words        block numbers: a branch to one of these is worth three moved instructions, where others take eight
 */
#ifndef VIRDZEBA_H
#define VIRDZEBA_H

#include <stddef.h>
#include <stdint.h>

#ifdef __cplusplus
extern "C" {
#endif

/* The program's sizes: the most of each count that a picture may have, and the most registers and operands that may be lent. */
#define VIRDZEBA_BLOCKS 64u
#define VIRDZEBA_INSTRUCTIONS 512u
#define VIRDZEBA_REGISTERS 512u
#define VIRDZEBA_OPERANDS 2048u
#define VIRDZEBA_PAIR_WORDS 256u
#define VIRDZEBA_TARGET_WORDS 1024u
#define VIRDZEBA_REPLAY_WORDS 64u
#define VIRDZEBA_VIA_WORDS 512u

#define VIRDZEBA_RESULT 53024u /* the bytes of the largest picture, which the result has at least */
#define VIRDZEBA_STACK 196608u /* bytes of stack that are enough for a thread that calls */

/* In place of a register that is absent: in slots that a kind does not have, or that a record leaves out where it may. */
#define VIRDZEBA_ABSENT 4294967295u

/* The places of the eight counts at a picture's head. */
enum virdzeba_count {
    VIRDZEBA_COUNT_BLOCKS = 0,
    VIRDZEBA_COUNT_INSTRUCTIONS = 1,
    VIRDZEBA_COUNT_REGISTERS = 2, /* in use; r0 is the first */
    VIRDZEBA_COUNT_OPERANDS = 3,  /* in use */
    VIRDZEBA_COUNT_PAIR_WORDS = 4,
    VIRDZEBA_COUNT_TARGET_WORDS = 5,
    VIRDZEBA_COUNT_REPLAY_WORDS = 6,
    VIRDZEBA_COUNT_VIA_WORDS = 7,
    VIRDZEBA_COUNTS = 8
};

/* The words of a record. */
enum virdzeba_word {
    VIRDZEBA_WORD_KIND = 0,      /* enum virdzeba_kind */
    VIRDZEBA_WORD_FORM = 1,      /* enum virdzeba_form, or 0 */
    VIRDZEBA_WORD_REGISTER = 2,  /* words 2 to 6: five register slots, what a kind does not use is VIRDZEBA_ABSENT */
    VIRDZEBA_WORD_LIST = 7,      /* where the record's list starts in the operands; 0 for a kind that has none */
    VIRDZEBA_WORD_LENGTH = 8,    /* how many registers the list has, all of them read; 0 for a kind that has none */
    VIRDZEBA_WORD_PAYLOAD = 9,   /* words 9 to 15: carried along. Read are: of Const and ConstF words 9 and 10, the low and the high
                                  * half of the number or of the float's bits; of Br 9, of CondBr 9 and 10, blocks; of Case 9, the
                                  * table's number, past the last of which there are no successors; of Cat 9, up to 65,535: where
                                  * bit k is 1, pair k of the list is a value and a count, where it is 0 an address and a count */
    VIRDZEBA_RECORD = 16
};

/* The types of registers. Up to 7 are allowed; those without a name are the caller's own, and are only compared. */
enum virdzeba_type {
    VIRDZEBA_TYPE_I64 = 0, /* a whole number */
    VIRDZEBA_TYPE_PTR = 1, /* an address */
    VIRDZEBA_TYPE_SIG = 4, /* a signal's reference, which takes the next register as well: a new one is followed by a new I64 */
    VIRDZEBA_TYPE_LAST = 7
};

/* The kinds and forms: printed by tools/kinds.py, which the gate compares. */

/* Word 0 of a record. Beside each its registers, words 2 on, w written, r read, ? may be absent; then what it is. */
enum virdzeba_kind {
    VIRDZEBA_CONST = 0,              /* w value: the whole number in words 9 and 10 */
    VIRDZEBA_CONST_F = 1,            /* w value: the float whose bits are words 9 and 10 */
    VIRDZEBA_MOVE = 2,               /* w to, r from: a register's value in another */
    VIRDZEBA_ADDR_OF = 3,            /* w to: an address, the form says in which memory */
    VIRDZEBA_SELECT = 4,             /* w to, r test, r yes, r no: one of two values, by a test */
    VIRDZEBA_COPY_CONST = 5,         /* r at: a constant of the program, copied to memory */
    VIRDZEBA_ALLOC = 6,              /* w to, r size: so many bytes of temporary memory, zeroed */
    VIRDZEBA_TEMP_ROOT = 7,          /* r at, r desc?: temporary memory made known to the collector */
    VIRDZEBA_PKG_ALLOC = 8,          /* w to, r size: so many bytes that last as long as their package */
    VIRDZEBA_LOAD = 9,               /* w to, r at: a value read from memory, the form is its width */
    VIRDZEBA_STORE = 10,             /* r at, r from: a value written to memory, the form is its width */
    VIRDZEBA_COPY = 11,              /* r at, r from, r bytes: bytes copied in memory */
    VIRDZEBA_ZERO = 12,              /* r at: bytes zeroed */
    VIRDZEBA_FILL = 13,              /* r at, r element, r times: copies of one element */
    VIRDZEBA_POS = 14,               /* w to, r desc, r index: the position of an index, checked */
    VIRDZEBA_SLICE_POS = 15,         /* w to, r desc, r left, r right, r dir: the position where a slice starts, checked */
    VIRDZEBA_INDEX = 16,             /* w to, r base, r position: the address of an array's element */
    VIRDZEBA_FIELD = 17,             /* w to, r base, r layout: the address of a record's field */
    VIRDZEBA_BIN = 18,               /* w to, r a, r b: arithmetic on whole numbers, checked */
    VIRDZEBA_UN = 19,                /* w to, r a: a whole number negated, or without its sign, checked */
    VIRDZEBA_F_BIN = 20,             /* w to, r a, r b: arithmetic on floats */
    VIRDZEBA_F_UN = 21,              /* w to, r a: a float negated, or without its sign */
    VIRDZEBA_PHYS = 22,              /* w to, r a, r b: a physical value times a float, or divided by one */
    VIRDZEBA_I_TO_F = 23,            /* w to, r from: a whole number as a float */
    VIRDZEBA_F_TO_I = 24,            /* w to, r from: a float rounded to a whole number, checked */
    VIRDZEBA_F_TO_I_RANGE = 25,      /* w to, r from, r low, r high: the same within a range, checked */
    VIRDZEBA_CMP = 26,               /* w to, r a, r b: a comparison of whole numbers */
    VIRDZEBA_F_CMP = 27,             /* w to, r a, r b: a comparison of floats */
    VIRDZEBA_BOOL_OP = 28,           /* w to, r a, r b (not at form 1): and, or, xor, not */
    VIRDZEBA_LOGIC_OP = 29,          /* r at, r a, r b (not at form 1), r count: an operation on logic arrays, element by element */
    VIRDZEBA_L_NUM = 30,             /* w to (r at form 0), r a, r b, r count: arithmetic on logic arrays, into memory, or a comparison */
    VIRDZEBA_L_EQ = 31,              /* w to, r a, r b, r count: whether two logic arrays are equal */
    VIRDZEBA_L_KEY = 32,             /* w to, r a, r count: a logic array as a number */
    VIRDZEBA_MEM_EQ = 33,            /* w to, r a, r b, r bytes: whether bytes are equal */
    VIRDZEBA_ARR_CMP = 34,           /* w to, r a, r b, r alen, r blen: the order of two arrays */
    VIRDZEBA_L_GET = 35,             /* w to, r base, r index: an element of a logic array */
    VIRDZEBA_L_SET = 36,             /* r base, r index, r value: an element of a logic array, set */
    VIRDZEBA_L_FILL = 37,            /* r base, r index, r count, r value: elements of a logic array, set alike */
    VIRDZEBA_L_COPY = 38,            /* r at, r offset, r from, r start, r count: elements copied between logic arrays */
    VIRDZEBA_CAT = 39,               /* r at, r count, r unit, list: the pieces of the list, one behind the other, at an address */
    VIRDZEBA_CHECK = 40,             /* r value, r low (not at form 1), r high (from form 2): a test that stops the run where it fails */
    VIRDZEBA_F_CHECK = 41,           /* r value, r low, r high: the same of floats */
    VIRDZEBA_BIN_RANGE = 42,         /* w to, r a, r b, r low, r high: arithmetic on whole numbers within a range, checked */
    VIRDZEBA_MAKE_DOPE = 43,         /* r at, list: a descriptor written to memory, from the list */
    VIRDZEBA_DOPE_LEN = 44,          /* w to, r desc: the length that a descriptor gives */
    VIRDZEBA_BOUNDS_LEN = 45,        /* w to, r left, r right, r dir: the length of a range in registers */
    VIRDZEBA_BOUNDS_POS = 46,        /* w to, r left, r right, r dir, r index: the position of an index in such a range, checked */
    VIRDZEBA_BOUNDS_SLICE = 47,      /* w to, list: the position where a slice of such a range starts, from the list */
    VIRDZEBA_RET_BOUNDS = 48,        /* r left, r right, r dir: the bounds of the array that is returned */
    VIRDZEBA_TAKE_BOUNDS = 49,       /* w left, w right, w dir: the bounds of the array that a call returned */
    VIRDZEBA_LAYOUT_OF = 50,         /* w to, r desc: sizes and offsets of a type, in temporary memory */
    VIRDZEBA_SUBTYPE_CHECK = 51,     /* r desc, r want: whether two descriptors have the same lengths, checked */
    VIRDZEBA_BR = 52,                /* no registers: on to block word 9 */
    VIRDZEBA_COND_BR = 53,           /* r test: to block word 9, or word 10 where the test is 0 */
    VIRDZEBA_CASE = 54,              /* r value: to a block of case table word 9 */
    VIRDZEBA_RET = 55,               /* r value?: the end of the function */
    VIRDZEBA_UNREACHABLE = 56,       /* no registers: stops the run */
    VIRDZEBA_CALL = 57,              /* w to?, list: a call of a function of the program, with the list */
    VIRDZEBA_CALL_NATIVE = 58,       /* w to?, list: a call of a function of the simulator, with the list */
    VIRDZEBA_CALL_FOREIGN = 59,      /* w to?, list: a call of a function of neither, with the list */
    VIRDZEBA_CALL_INDIRECT = 60,     /* r func, w to?, list: a call by a register, with the list */
    VIRDZEBA_CALL_PROT = 61,         /* r object, w to?, list: a call of a protected object's function, with the list */
    VIRDZEBA_NEW = 62,               /* w to, r from, r size: an object on the heap */
    VIRDZEBA_NEW_FILL = 63,          /* w to, r desc, r from, r size: an object on the heap with its descriptor */
    VIRDZEBA_NEW_FRAME = 64,         /* w to, r desc, r from, r size: such an object in the frame */
    VIRDZEBA_FREE = 65,              /* r at: an object freed, its variable set to null */
    VIRDZEBA_DEREF = 66,             /* w to, r handle: the address of a heap object, checked */
    VIRDZEBA_SIG_VAL = 67,           /* w to, r offset, r count: a reference to a signal */
    VIRDZEBA_SIG_PARTS = 68,         /* w to, r parts, r count: a reference to parts of signals */
    VIRDZEBA_SIG_SLICE = 69,         /* w to, r signal, r offset, r count: a part of a reference */
    VIRDZEBA_SIG_READ = 70,          /* r at, r signal: a signal's value, into memory */
    VIRDZEBA_SIG_READ_SCALAR = 71,   /* w to, r signal: a signal's value, one element */
    VIRDZEBA_SIG_LAST_VALUE = 72,    /* r at, r signal: a signal's last value, into memory */
    VIRDZEBA_SIG_ATTR = 73,          /* w to, r signal: when a signal last changed, or whether it does */
    VIRDZEBA_SIG_GATHER = 74,        /* r at, r desc, r first?, r outer?: the leaves of a record of signals, into memory */
    VIRDZEBA_SIG_SCATTER = 75,       /* r from, r desc, list: the leaves of a record of signals, driven from memory */
    VIRDZEBA_EDGE = 76,              /* w to, r signal: whether a clock edge is there */
    VIRDZEBA_DRIVING = 77,           /* w to: whether a driver drives */
    VIRDZEBA_DRIVING_VALUE = 78,     /* r at: what a driver drives, into memory */
    VIRDZEBA_SIG_DRIVING = 79,       /* w to, r signal: whether what is referred to is driven */
    VIRDZEBA_SIG_DRIVING_VALUE = 80, /* r at, r signal: what drives it, into memory */
    VIRDZEBA_DRIVE = 81,             /* r target?, r wave, r count, r reject?: a waveform for a driver */
    VIRDZEBA_DRIVE_SLOT = 82,        /* r slot, r target, r wave, r count, r reject?: the same, the driver in a register */
    VIRDZEBA_DISCONNECT = 83,        /* r target?, r after?: a driver off */
    VIRDZEBA_DISCONNECT_SLOT = 84,   /* r slot, r target, r after?: the same, the driver in a register */
    VIRDZEBA_FORCE = 85,             /* r signal, r value: a value forced on a signal */
    VIRDZEBA_RELEASE = 86,           /* r signal: a forced signal let go */
    VIRDZEBA_WAIT_ON = 87,           /* r signal: a signal that ends the next wait */
    VIRDZEBA_WAIT_EDGE = 88,         /* r signal: an edge that ends the next wait */
    VIRDZEBA_WAIT_FOR = 89,          /* r time: a time after which the next wait ends */
    VIRDZEBA_WAIT_AT = 90,           /* r time: a time at which the next wait ends */
    VIRDZEBA_SUSPEND = 91,           /* no registers: the process waits */
    VIRDZEBA_TIMED_OUT = 92,         /* w to: whether the time ended a wait */
    VIRDZEBA_NOW = 93,               /* w to: the time */
    VIRDZEBA_DELTA = 94,             /* w to: the number of the delta cycle */
    VIRDZEBA_REPORT = 95,            /* r text, r length, r severity: a message */
    VIRDZEBA_OUTPUT = 96,            /* r at, r length: text written out */
    VIRDZEBA_COVER = 97,             /* no registers: a statement counted */
    VIRDZEBA_COVER_IN = 98,          /* w to, r state, r from: an input of a condition, noted */
    VIRDZEBA_COVER_COND = 99,        /* r state: a condition counted */
    VIRDZEBA_STMT = 100              /* no registers: the end of a statement and of its temporary memory */
};

/* Word 1 of a record. Of a kind that is not named here it is 0. */
enum virdzeba_form {
    VIRDZEBA_ADDR_OF_FRAME = 0,      /* the function's own frame */
    VIRDZEBA_ADDR_OF_UP = 1,         /* an outer function's frame */
    VIRDZEBA_ADDR_OF_INST = 2,       /* the data of the instance, read only */
    VIRDZEBA_ADDR_OF_PKG = 3,        /* a package's data */
    VIRDZEBA_ADDR_OF_CONST = 4,      /* the constants of the program, read only */
    VIRDZEBA_ADDR_OF_SHARED = 5,     /* shared variables */
    VIRDZEBA_LOAD_B1 = 1,            /* 1 byte */
    VIRDZEBA_LOAD_B4 = 2,            /* 4 bytes */
    VIRDZEBA_LOAD_B8 = 3,            /* 8 bytes */
    VIRDZEBA_LOAD_SIG = 4,           /* a signal's reference */
    VIRDZEBA_STORE_B1 = 1,           /* 1 byte */
    VIRDZEBA_STORE_B4 = 2,           /* 4 bytes */
    VIRDZEBA_STORE_B8 = 3,           /* 8 bytes */
    VIRDZEBA_STORE_SIG = 4,          /* a signal's reference */
    VIRDZEBA_BIN_OTHER = 0,          /* remainder, modulus, power */
    VIRDZEBA_BIN_ADD = 1,
    VIRDZEBA_BIN_SUB = 2,
    VIRDZEBA_BIN_MUL = 3,
    VIRDZEBA_BIN_DIV = 4,
    VIRDZEBA_BOOL_OP_TWO = 0,        /* and, or, xor */
    VIRDZEBA_BOOL_OP_NOT = 1,
    VIRDZEBA_LOGIC_OP_TWO = 0,       /* of two arrays */
    VIRDZEBA_LOGIC_OP_ONE = 1,       /* not, and the three conversions */
    VIRDZEBA_L_NUM_ARRAY = 0,        /* a sum or difference, into memory */
    VIRDZEBA_L_NUM_CMP = 1,          /* a comparison, into a register */
    VIRDZEBA_CAT_BYTES = 0,          /* pieces of bytes */
    VIRDZEBA_CAT_LOGIC = 1,          /* pieces of logic arrays */
    VIRDZEBA_CHECK_LENGTH = 0,       /* value is low */
    VIRDZEBA_CHECK_NULL = 1,         /* value is not 0 */
    VIRDZEBA_CHECK_RANGE = 2,        /* value is from low to high */
    VIRDZEBA_CHECK_INDEX = 3,        /* the same, of an index */
    VIRDZEBA_CHECK_INDEX_DOWN = 4,   /* the same, of a range that descends */
    VIRDZEBA_LAYOUT_OF_MADE = 0,
    VIRDZEBA_LAYOUT_OF_CACHED = 1,   /* kept in the frame */
    VIRDZEBA_CALL_RUNS = 0,          /* does not suspend */
    VIRDZEBA_CALL_SUSPENDS = 1,      /* may suspend */
    VIRDZEBA_CALL_NATIVE_PLAIN = 0,  /* any other */
    VIRDZEBA_CALL_NATIVE_IMAGE = 1,  /* 'image of a number or an enumeration; its list has one register, else it is plain */
    VIRDZEBA_CALL_NATIVE_LIGHT = 2,  /* reads its list, returns a new block of memory, touches nothing else */
    VIRDZEBA_CALL_PROT_RUNS = 0,     /* does not suspend */
    VIRDZEBA_CALL_PROT_SUSPENDS = 1  /* may suspend */
};

/* end of what tools/kinds.py prints. */

/* What the call answers. */
enum virdzeba_answer {
    VIRDZEBA_DONE = 0,      /* 0 to 8, the rounds that were done. Below 8 there was no further move, or a gate stopped the picture:
                             * it has no blocks, or no Cat of form 0. After 8 moves may be left. A call with the result goes on,
                             * and may find moves even after fewer than 8: what is known of registers is found once a call */
    VIRDZEBA_SHORT = 100,   /* 100 to 107: less 100, the rounds that were done before one that needs more than was lent */
    VIRDZEBA_REFUSED = 200, /* 201 to 209: less 200, the lowest cause of refusal that is present, as follows */
    VIRDZEBA_REFUSED_ROOM = 201,    /* more registers or operands are in use than are lent */
    VIRDZEBA_REFUSED_UNEVEN = 202,  /* via words are neither none nor one an instruction, or pair words are odd */
    VIRDZEBA_REFUSED_BLOCKS = 203,  /* blocks do not lie end to end over all instructions */
    VIRDZEBA_REFUSED_KIND = 204,    /* a kind above 100, a form that its kind does not have, or word 9 of a Cat above 65,535 */
    VIRDZEBA_REFUSED_SLOT = 205,    /* a slot is no register in use, is absent where it must be there, or there where it must be
                                     * absent; or a SigGather has one of its last two registers without the other */
    VIRDZEBA_REFUSED_LIST = 206,    /* words 7 and 8 are not 0 on a kind without a list, a list passes the operands in use, or an
                                     * operand in use, listed or not, is no register in use */
    VIRDZEBA_REFUSED_BRANCH = 207,  /* a Br or CondBr, wherever it stands, or a target word goes to no block; or a case table is
                                     * empty or passes the target words */
    VIRDZEBA_REFUSED_CAT = 208,     /* the list of a Cat has more than 33 registers */
    VIRDZEBA_REFUSED_TYPE = 209,    /* a type in use is above 7 */
    VIRDZEBA_UNREAD = 300   /* nothing was looked at: the bytes are cut short or are more than their counts say, a count is past the
                             * program's sizes, the result is too small, or more is lent than may be */
};

/* The bytes of a picture, by the eight counts at its head: of these 32 bytes, and of nothing else, it reads. */
static inline size_t virdzeba_length(const uint8_t *picture)
{
    static const unsigned char words[VIRDZEBA_COUNTS] = {2, 17, 1, 1, 1, 1, 1, 1}; /* for each that is counted */
    size_t n = VIRDZEBA_COUNTS;
    int i;
    for (i = 0; i < VIRDZEBA_COUNTS; i++, picture += 4)
        n += words[i] * (picture[0] + ((size_t)picture[1] << 8) + ((size_t)picture[2] << 16) + ((size_t)picture[3] << 24));
    return 4 * n;
}

/* Sinks the picture of `picture_len` bytes, with so many registers and operands lent: the room for those in use and for new ones.
 * Lend VIRDZEBA_REGISTERS and VIRDZEBA_OPERANDS if nothing speaks against it.
 *
 * Done and short write the new picture at the head of `result`, virdzeba_length(result) bytes, and nothing behind it. The other
 * answers write nothing.
 *
 * Any bytes and numbers may be given. Asked is this:
 * - `picture` leads to picture_len bytes that can be read, `result` to result_len bytes that can be written. With length 0 a
 *   pointer may be anything, NULL too: a picture or result of no bytes is answered by VIRDZEBA_UNREAD.
 * - The two do not overlap. During the call nobody writes the picture, and nobody reads or writes the result.
 * - The thread has VIRDZEBA_STACK bytes of stack to spare; some threads have less by default.
 *
 * No alignment is asked. The call does not write the picture, keeps no state, allocates nothing and always returns: threads may
 * call it at once, each with a result of its own. The same picture and numbers give the same answer and bytes. Of C's library it
 * takes memcpy and memset, and nothing else. */
uint32_t virdzeba_sink(const uint8_t *picture, size_t picture_len,
                       uint8_t *result, size_t result_len,
                       uint32_t registers, uint32_t operands);

#ifdef __cplusplus
}
#endif

#endif
