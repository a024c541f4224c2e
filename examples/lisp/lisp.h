/* A small Lisp. It has no memory of its own but what memory.c gives it: its values are in registers, in globals, and in
 * objects that these name. It holds no address of an object, so the memory may move objects as it likes.
 *
 * Threads share all objects. One thread runs at a time, and others run only when it rests or joins (memory_rest,
 * memory_join), so the machine, the reader and the printer take no lock. Output that blocks delays all threads. */
#ifndef LISP_H
#define LISP_H

#include <stdbool.h>
#include <stdint.h>

/* A value is a word, with an object if the kind of the word has one. The word is 2 n + 1 for the number n of 63 bits.
 * Any other has its kind in the lowest eight bits, and what they don't tell in the others: the number of a symbol, a
 * primitive or a procedure. Kinds of objects are 2 modulo 4. The empty list, which is false too, is 0. A closure is a
 * procedure with values that it has captured; a procedure without any is no object. */
enum kind {
    NIL = 0, NUMBER = 1, PAIR = 2, SYMBOL = 4, CLOSURE = 6, PRIMITIVE = 8, THREAD = 10, PROCEDURE = 12, CHUNK = 14,
    UNBOUND = 16
};
enum { KIND_BITS = 8 };
static inline enum kind kind_of(uint64_t word) {
    return word & NUMBER ? NUMBER : (enum kind)(word & ((1 << KIND_BITS) - 1));
}
static inline bool has_object(uint64_t word) { return word % 4 == 2; }
static inline uint64_t word_of(enum kind kind, uint64_t number) { return number << KIND_BITS | kind; }
static inline uint64_t number_of(uint64_t word) { return word >> KIND_BITS; }

/* A number has 63 bits; what is more is lost. */
static inline uint64_t word_of_integer(int64_t integer) { return (uint64_t)integer << 1 | NUMBER; }
static inline int64_t integer_of(uint64_t word) { return (int64_t)word >> 1; }

/* The registers of a thread: the stack of its machine, one that is always the empty list, one for memory.c, the part
 * of the stack that isn't in registers, and handles for the functions in C. words has the word of each register's
 * value; the register itself names the object, or nothing. */
enum { STACK = 512, HANDLES = 8 };
enum { NOTHING = STACK, SPARE, SPILLED, FIRST_HANDLE, REGISTERS = FIRST_HANDLE + HANDLES };
extern _Thread_local uint64_t words[REGISTERS];

/* The globals, which threads share: the thread of each number until that is joined, the definition of each symbol, and
 * the lists that the program quotes. global_words has their words. */
enum { THREADS = 64, NAMES = 512, QUOTATIONS = 448 };
enum { DEFINITIONS = THREADS, QUOTED = DEFINITIONS + NAMES, GLOBALS = QUOTED + QUOTATIONS };
extern uint64_t global_words[GLOBALS];

/* An object is a number of fields, each a value. The fields of a pair come in this order as most lists are of numbers:
 * their references come first then. The fields of a thread; those of a closure are what it has captured. */
enum { CDR, CAR, PAIR_SIZE };
enum { RESULT, CALLED, SEAT, THREAD_SIZE };
enum { CHUNK_SIZE = 42, MOST_CAPTURED = CHUNK_SIZE };

/* memory.c, and memory_gc.c for comparison. If there is no room, or no such thing, a call prints that and ends the
 * program. */
struct memory_options {
    uint32_t words, frames; /* of a page; how many pages may have memory at once */
    uint32_t budget;        /* objects that a part of a collection scans; 0: collections are complete */
    uint32_t threads;       /* how many threads there may be at once */
    uint64_t check;         /* after so many objects the memory is verified, if it can be; 0: never */
};
void memory_open(const struct memory_options *options);
void memory_close(bool prints_what_it_did);
/* Makes an object with a field for each of some registers, up to CHUNK_SIZE of them, and its word. */
void memory_make(unsigned target, uint64_t word, const uint32_t *sources, unsigned size);
/* The field of an object; and several, from field 0 on. If the object's own register gets one, that is field 0. */
void memory_get(unsigned target, unsigned object, unsigned field);
void memory_get_all(const uint32_t *targets, unsigned object, unsigned size);
void memory_put(unsigned object, unsigned field, unsigned source);
/* Registers: gives one a word of no object, or the value of another one. */
void memory_set(unsigned target, uint64_t word);
void memory_copy(unsigned target, unsigned source);
bool memory_same(unsigned left, unsigned right);
void memory_get_global(unsigned target, unsigned global);
void memory_put_global(unsigned global, unsigned source);
/* Handles in scopes: memory_handle takes a register, and memory_end_scope clears and frees all that were taken since
 * its memory_begin_scope. */
struct memory_scope {
    uint32_t first;
};
struct memory_scope memory_begin_scope(void);
unsigned memory_handle(void);
void memory_end_scope(struct memory_scope scope);
/* memory_start starts a thread of the system and returns its number, which is the argument of its work. The thread
 * begins when the caller rests or joins, with empty registers. memory_join waits until a thread has ended, while other
 * threads run; its number is free then. memory_rest is a safepoint: other threads may run before it returns. */
unsigned memory_start(void (*work)(unsigned number));
void memory_join(unsigned number);
void memory_rest(void);

/* text.c: names; reading an expression; and printing a value. */
_Noreturn void fail(const char *what);
const char *spelling(uint64_t symbol);
uint64_t symbol_of(const char *name);
/* What is read is a tree of nodes. Node 0 is none: an empty list has no first and no last item. */
struct node {
    enum { INTEGER, NAME, LIST } form;
    int64_t value; /* the integer, or the number of the symbol */
    uint32_t first, last, next, previous;
};
extern struct node nodes[];
uint32_t read_expression(const char **text); /* 0 at the end of the text */
void print_value(unsigned value);

/* compile.c: the code of an expression. A procedure has a frame on the machine's stack: its closure, where to return,
 * its parameters, then what it computes. Its value replaces the closure. Slots are numbers of a frame. */
enum { SELF, BACK, FIRST_SLOT, MOST_SLOTS = 256 };
struct procedure {
    uint32_t code; /* where its code begins */
    uint32_t parameters, size; /* how many; the slots of its frame */
};
extern struct procedure procedures[];
extern int32_t program[];
extern uint64_t constants[];
/* The instructions, each with its operands. A slot is the target if there is one, and it comes first. CALL has the base
 * of the new frame, the symbol that is called, or -1 if the base has the procedure, and the number of arguments and
 * their slots; the value comes to the base. If that isn't the target, a MOVE follows, and a primitive, whose value goes
 * to the target, skips it. */
enum instruction {
    HALT,      /* */
    CONSTANT,  /* target constant */
    MOVE,      /* target slot */
    GLOBAL,    /* target global */
    CAPTURED,  /* target field */
    CLOSE,     /* target procedure count slots.. */
    DEFINE,    /* slot symbol */
    JUMP,      /* where */
    IF_NOT,    /* slot where */
    CALL,      /* target base symbol count slots.. */
    TAIL_CALL, /* procedure base symbol count slots.. */
    RETURN,    /* procedure */
    ENTER,     /* */
    LEAVE      /* */
};
enum { CALL_WORDS = 5, CLOSE_WORDS = 4, MOVE_WORDS = 3 };
/* Returns a procedure without parameters that has the value of an expression. */
uint32_t compile(uint32_t expression);
extern const char *const special_names[];

/* machine.c: calls a procedure without parameters; the names of primitives; #t; and waits for the threads that nobody
 * has joined. */
extern const char *const primitive_names[];
extern uint64_t truth;
void run_procedure(uint32_t procedure);
void join_all(unsigned threads);

#endif
