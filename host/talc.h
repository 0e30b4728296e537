/* talc.h: the proved checker, machine and compiler of talc, for programs in C.
 *
 * Two libraries: libtal_c checks and runs assembly texts (TAL), libtalc_c compiles source texts to them.
 *
 * Every call returns, reads only the bytes and the memory it is given, keeps nothing of its own between calls (no
 * global state, no locale, no signal, no thread), and writes nothing but its answer and the guest or the room that it
 * is given. So calls on different guests and rooms may be made at once from as many threads as one likes; a guest or a
 * room is used by one call at a time. Memory comes from the program's malloc, realloc and free. All of it is given back
 * before a call returns, but for what a guest holds, which talc_guest_clear gives back: that is tested by
 * examples/hosts, and no contract says it.
 *
 * The caller owes: a text is not NULL, even where its length is 0, and does not change during the call; the same of a
 * room, which is no part of the text; a guest was given to talc_guest_init; and 4 MB of stack, as reading takes about
 * 1.4 KB for each of the 2000 constructs that an assembly text may have open at once. (256 KB are enough for a source
 * text, which may have 200.)
 */
#ifndef TALC_H
#define TALC_H

#include <stddef.h>
#include <stdint.h>

#ifdef __cplusplus
extern "C" {
#endif

/* The version of this header: a library that answers another number is not the one that it declares. */
#define TALC_VERSION 1
uint32_t talc_version(void);          /* of libtal_c */
uint32_t talc_compiler_version(void); /* of libtalc_c */

/* How a call ended. The numbers are the exit statuses of the program talc, and 8. */
enum {
    TALC_DONE = 0,    /* accepted, or made; or the program halted */
    TALC_REFUSED = 1, /* the text breaks a rule: code, start, end */
    TALC_EMPTY = 2,   /* the guest has no program */
    TALC_USAGE = 2,   /* there is no such form, or the registers are too few */
    TALC_LIMIT = 3,   /* the text passes a limit: code, start, end */
    TALC_BUDGET = 4,  /* the instructions or turns are used up, and the program goes on */
    TALC_MEMORY = 7,  /* memory was wanted and not had */
    TALC_SMALL = 8    /* the room is too small, and as it was: length is what it takes */
};

/* Codes of faults: of an assembly text 100 and the number for T01 to T20, and 201 for M1; of a source text 300 and the
 * number for E01 to E22, and 400 and the number for L1 to L5. */
enum {
    TALC_T01 = 101, /* byte begins no token */
    TALC_T02,       /* number out of range */
    TALC_T03,       /* unexpected token or end */
    TALC_T04,       /* duplicate label */
    TALC_T05,       /* unknown label */
    TALC_T06,       /* unbound type name */
    TALC_T07,       /* register twice in one file type */
    TALC_T08,       /* register without a type */
    TALC_T09,       /* not int */
    TALC_T10,       /* not a tuple */
    TALC_T11,       /* no such field */
    TALC_T12,       /* field not initialised */
    TALC_T13,       /* stored value of another type */
    TALC_T14,       /* not an existential */
    TALC_T15,       /* pack does not fit */
    TALC_T16,       /* target is not code without types owed */
    TALC_T17,       /* too many type arguments */
    TALC_T18,       /* registers do not fit */
    TALC_T19,       /* r1 is not int at halt */
    TALC_T20,       /* first block takes something */
    TALC_M1 = 201,  /* more than 2000 open constructs */
    TALC_E01 = 301, /* byte begins no token */
    TALC_E02,       /* number out of range */
    TALC_E03,       /* unexpected token */
    TALC_E04,       /* unexpected end of text */
    TALC_E05,       /* unbound name */
    TALC_E06,       /* unbound type name */
    TALC_E07,       /* not a function */
    TALC_E08,       /* argument of another type */
    TALC_E09,       /* not polymorphic */
    TALC_E10,       /* not a tuple */
    TALC_E11,       /* no such field */
    TALC_E12,       /* operand is not int */
    TALC_E13,       /* branches of two types */
    TALC_E14,       /* body not of the declared type */
    TALC_E15,       /* program is not int */
    TALC_E16,       /* not an existential */
    TALC_E17,       /* pack does not fit */
    TALC_E18,       /* hidden type escapes */
    TALC_E19,       /* cells are not evaluated */
    TALC_E21 = 321, /* not a reference */
    TALC_E22,       /* assigned value of another type */
    TALC_L1 = 401,  /* more than 16777216 bytes */
    TALC_L2,        /* more than 200 open constructs */
    TALC_L3,        /* more than 100000 nodes */
    TALC_L4,        /* type deeper than 200 */
    TALC_L5         /* type of more than 10000 nodes */
};

/* ---- libtal_c: checking and running assembly texts */

/* What a call on an assembly text or a guest tells. What there is not to tell is 0. */
typedef struct talc_answer {
    uint32_t status; /* TALC_DONE .. */
    uint32_t code;   /* of a fault: TALC_T01 .. */
    uint64_t start;  /* of a fault: its first byte in the text, from 0 */
    uint64_t end;    /* and the byte after its last */
    int64_t value;   /* of a program that halted: its integer */
    uint64_t made;   /* how many instructions this call made */
} talc_answer;

/* Whether the typing rules accept the text: TALC_DONE, TALC_REFUSED, TALC_LIMIT or TALC_MEMORY.
 * A text of TALC_DONE never gets stuck, however long it runs. */
talc_answer talc_check(const uint8_t *text, size_t length);

/* Checks the text, and runs it for at most so many instructions: also TALC_DONE with its integer, or TALC_BUDGET. */
talc_answer talc_run(const uint8_t *text, size_t length, uint64_t fuel);

/* A guest: a program that is checked and loaded once, and run a slice at a time. The host keeps it where it likes, on
 * the stack or the heap, and may move it by memcpy between calls. What is in it is of no use to the host. */
#define TALC_GUEST_WORDS 64 /* proved to be enough */
typedef struct talc_guest {
    uint64_t opaque[TALC_GUEST_WORDS];
} talc_guest;

/* How many bytes a guest takes, and at a multiple of which address it stands, for hosts that lay it out themselves. */
size_t talc_guest_size(void);
size_t talc_guest_align(void);

/* First of all: makes an empty guest of this memory, whatever was in it. */
void talc_guest_init(talc_guest *guest);

/* Checks the text and loads it, in place of the program that was there. Where the text is not accepted, the guest is
 * empty afterwards. */
talc_answer talc_guest_load(talc_guest *guest, const uint8_t *text, size_t length);

/* Runs on for at most so many instructions: run(a) and then run(b) is as run(a + b). After TALC_DONE, TALC_BUDGET and
 * TALC_MEMORY (memory was wanted for a tuple, and the program stands before it) it can be run again. */
talc_answer talc_guest_run(talc_guest *guest, uint64_t fuel);

/* Takes memory in advance: for so many tuples, and for so many fields of all of them together. A run whose instructions
 * take no more than these does not end with TALC_MEMORY. TALC_DONE, TALC_EMPTY, or TALC_MEMORY, where the guest stands
 * as before, and no less is spare. */
talc_answer talc_guest_reserve(talc_guest *guest, uint64_t tuples, uint64_t fields);

/* Drops the tuples that the guest cannot reach any more, so that a run uses their memory again. A run does so by itself
 * where there are many. TALC_DONE, TALC_EMPTY, or TALC_MEMORY, exactly where more than 2^64 - 2^32 tuples were made:
 * its tuples and registers are then as before. */
talc_answer talc_guest_collect(talc_guest *guest);

/* Sets what the guest may keep from now on: never more than so many tuples, nor more than so many fields of all of them
 * together, with the data of its program; or no more than it keeps now, where that is more. An instruction for which
 * more would be kept, after all is dropped that cannot be reached, ends its run with TALC_MEMORY, whatever memory there
 * is; under a larger cap the guest goes on. What was spare stays so, as far as the cap leaves room for it. Without a
 * cap it may keep 2^32 - 1 of each, and a load sets none. Takes no memory. TALC_DONE or TALC_EMPTY. */
talc_answer talc_guest_within(talc_guest *guest, uint64_t tuples, uint64_t fields);

/* How many tuples the guest keeps, with the data of its program: 0 of an empty one. Some of them it may not reach any
 * more, but none such after TALC_DONE of talc_guest_collect, nor after TALC_MEMORY of a run, unless more than
 * 2^64 - 2^32 tuples were made. */
uint64_t talc_guest_kept(talc_guest *guest);

/* The word of a register, or of a field of a tuple, where it has one. */
enum {
    TALC_NONE = 0,  /* it has none, there is no such tuple or field, or the guest is empty */
    TALC_INT = 1,   /* an integer: value */
    TALC_TUPLE = 2, /* a tuple: number */
    TALC_BLOCK = 3  /* a block: number, in the order of the text, from 0 */
};
typedef struct talc_word {
    uint32_t kind;   /* TALC_NONE .. */
    uint64_t number; /* of a tuple or a block */
    int64_t value;   /* of an integer */
} talc_word;
talc_word talc_guest_reg(talc_guest *guest, uint64_t number);

/* The word of a field, from 0, of the tuple of this number, which a register or another field shows. The numbers stay as
 * the guest runs on; but a tuple that it cannot reach any more may be dropped, and has then no fields. */
talc_word talc_guest_field(talc_guest *guest, uint64_t tuple, uint64_t field);

/* Where the guest stands. */
typedef struct talc_place {
    uint32_t status; /* TALC_DONE, or TALC_EMPTY */
    uint64_t block;  /* in the order of the text, from 0 */
    uint64_t index;  /* the instruction of the block, from 0, or its end */
} talc_place;
talc_place talc_guest_place(talc_guest *guest);

/* Gives back what the guest holds. It is then empty, and its memory the host's. */
void talc_guest_clear(talc_guest *guest);

/* ---- libtalc_c: source texts
 *
 * What is made is put into the room, `size` bytes that begin at `room`. It is put there whole or not at all: where it
 * does not fit, the answer is TALC_SMALL with the length that it takes, and the room is as it was, as where a text
 * is refused. No byte behind what is made is written, and no 0 ends it. To ask for the length alone give one byte of
 * room and the size 0; the room may not be NULL. */

/* What a call tells. What there is not to tell is 0. */
typedef struct talc_made {
    uint32_t status; /* TALC_DONE .. */
    uint32_t code;   /* of a fault: TALC_E01 .. */
    uint64_t start;  /* of a fault: its first byte in the text, from 0 */
    uint64_t end;    /* and the byte after its last */
    uint64_t length; /* of what is made: how many bytes it has */
} talc_made;

/* Compiles a source text to an assembly text that means the same and is accepted. `registers` is 0 for as many as the
 * program takes, else the number of them, 8 or more (fewer: TALC_USAGE). */
talc_made talc_compile(const uint8_t *text, size_t length, uint64_t registers, uint8_t *room, size_t size);

/* The type of a source text, and a line end. */
talc_made talc_typeof(const uint8_t *text, size_t length, uint8_t *room, size_t size);

/* Evaluates a source text for at most so many turns: the line `int 120 after 52 turns`; or TALC_BUDGET, and the line
 * that it goes on after them. */
talc_made talc_eval(const uint8_t *text, size_t length, uint64_t turns, uint8_t *room, size_t size);

/* A form of the program of a source text, on the way to the assembly text (another number: TALC_USAGE). */
enum {
    TALC_SOURCE = 0,
    TALC_CPS = 1,       /* in continuation-passing style */
    TALC_CLOSED = 2,    /* with closures converted */
    TALC_HOISTED = 3,   /* with functions at the top */
    TALC_ALLOCATED = 4, /* with explicit allocation */
    TALC_ASSEMBLY = 5
};
talc_made talc_show(const uint8_t *text, size_t length, uint32_t form, uint8_t *room, size_t size);

/* A page for people on the first fault of a text, with the line and the types that are at odds; or `no fault`. A text
 * that begins with the word tal is taken for an assembly text. TALC_DONE, TALC_SMALL or TALC_MEMORY. */
talc_made talc_explain(const uint8_t *text, size_t length, uint8_t *room, size_t size);

#ifdef __cplusplus
}
#endif
#endif
