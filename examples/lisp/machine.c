/* The machine. Its stack is in registers, of which the oldest part goes to the heap when they are all in use: so a deep
 * recursion takes none of C's stack, and a call in tail position takes no memory. */
#include "lisp.h"

#include <stdio.h>

/* What a thread executes. The slots of its frame are counted from frame on; those of all frames are numbers of the
 * stack, and slot n is in register n modulo STACK, from low on. Those before are in chunks, the last one first. */
static _Thread_local struct {
    const int32_t *next;
    uint64_t frame, low;
    unsigned atomics; /* how many atomic forms it is in; if none, each call of a procedure is a safepoint */
} machine;

/* The register of a slot of the frame. */
static inline unsigned at(int slot) { return (unsigned)(machine.frame + (unsigned)slot) % STACK; }

/* The slots of a chunk; its field 0 is the chunk before. */
enum { CHUNK_SLOTS = CHUNK_SIZE - 1 };
static void list_chunk(uint32_t registers[CHUNK_SIZE]) {
    registers[0] = SPILLED;
    for (unsigned i = 0; i < CHUNK_SLOTS; i++) registers[i + 1] = (unsigned)(machine.low + i) % STACK;
}
static void spill(void) {
    uint32_t registers[CHUNK_SIZE];
    list_chunk(registers);
    memory_make(SPILLED, word_of(CHUNK, 0), registers, CHUNK_SIZE);
    for (unsigned i = 1; i < CHUNK_SIZE; i++) memory_set(registers[i], NIL);
    machine.low += CHUNK_SLOTS;
}
static void refill(void) {
    uint32_t registers[CHUNK_SIZE];
    machine.low -= CHUNK_SLOTS;
    list_chunk(registers);
    memory_get_all(registers, SPILLED, CHUNK_SIZE);
}

/* Clears what the slots of the frame name, from one on. */
static void clear_slots(int slot, const struct procedure *procedure) {
    for (; slot < (int)procedure->size; slot++)
        if (has_object(words[at(slot)])) memory_set(at(slot), NIL);
}

/* Begins the code of a procedure in the frame. */
static void begin(const struct procedure *procedure) {
    while (machine.frame + procedure->size > machine.low + STACK) spill();
    machine.next = program + procedure->code;
    if (!machine.atomics) memory_rest();
}

/* Begins it in a new frame from a slot on. BACK is the number of the instruction to return to, and how many slots
 * the frame is after the one before. */
enum { SLOT_BITS = 16 };
static void begin_frame(const struct procedure *procedure, int slot, int64_t back) {
    memory_set(at(slot + BACK), word_of_integer(back << SLOT_BITS | slot));
    machine.frame += (unsigned)slot;
    begin(procedure);
}

/* Returns from a procedure, whose value is in SELF. */
static void end_frame(const struct procedure *procedure) {
    const int64_t back = integer_of(words[at(BACK)]);
    clear_slots(FIRST_SLOT, procedure);
    machine.next = program + (back >> SLOT_BITS);
    machine.frame -= (uint64_t)back & ((1 << SLOT_BITS) - 1);
    while (machine.frame < machine.low) refill();
}

/* What a primitive gets: the slots of its arguments. */
struct arguments {
    const int32_t *slots;
    int count;
};
enum { ADD, SUBTRACT, MULTIPLY, DIVIDE, REMAINDER, EQUAL, LESS, CONS, HEAD, TAIL, SET_TAIL, IS_NULL, IS_PAIR, IS_SAME,
       DISPLAY, JOIN, SPAWN, NEWLINE };
const char *const primitive_names[] = {"+", "-", "*", "quotient", "remainder", "=", "<", "cons", "car", "cdr",
                                       "set-cdr!", "null?", "pair?", "eq?", "display", "join", "spawn", "newline",
                                       NULL};
uint64_t truth;

/* The register of an argument, which has a kind, or any if that is NIL. */
static inline unsigned argument(const struct arguments *arguments, int number, enum kind kind) {
    if (number >= arguments->count) fail("too few arguments");
    const unsigned found = at(arguments->slots[number]);
    if (kind != NIL && kind_of(words[found]) != kind) fail("an argument of another kind");
    return found;
}
static uint64_t truth_of(bool is_so) { return is_so ? truth : NIL; }

/* Sums, differences and products wrap. */
static uint64_t calculate(uint64_t which, const struct arguments *arguments) {
    const int64_t left = integer_of(words[argument(arguments, 0, NUMBER)]);
    const int64_t right = integer_of(words[argument(arguments, 1, NUMBER)]);
    if ((which == DIVIDE || which == REMAINDER) && right <= 0) fail("a divisor below 1");
    switch (which) {
    case ADD: return word_of_integer((int64_t)((uint64_t)left + (uint64_t)right));
    case SUBTRACT: return word_of_integer((int64_t)((uint64_t)left - (uint64_t)right));
    case MULTIPLY: return word_of_integer((int64_t)((uint64_t)left * (uint64_t)right));
    case DIVIDE: return word_of_integer(left / right);
    case REMAINDER: return word_of_integer(left % right);
    case EQUAL: return truth_of(left == right);
    default: return truth_of(left < right);
    }
}

/* The work of a new thread: it calls the procedure it was started with, and stores the value. */
static void apply(const struct arguments *arguments);
static void run_thread(unsigned number) {
    const struct memory_scope scope = memory_begin_scope();
    const unsigned thread = memory_handle(), list = memory_handle();
    int32_t slots[MOST_SLOTS];
    struct arguments arguments = {slots, 0};
    memory_get_global(thread, number);
    memory_get(list, thread, CALLED);
    memory_put(thread, CALLED, NOTHING);
    memory_get(at(SELF), list, CAR);
    while (memory_get(list, list, CDR), words[list] != NIL) {
        slots[arguments.count] = FIRST_SLOT + arguments.count;
        memory_get(at(slots[arguments.count++]), list, CAR);
    }
    apply(&arguments);
    memory_put(thread, RESULT, at(SELF));
    memory_end_scope(scope);
}

/* (spawn PROCEDURE ARGUMENT ..) starts a thread that calls the procedure, and returns the thread. */
static void spawn(unsigned target, const struct arguments *arguments) {
    if (!arguments->count) fail("too few arguments");
    const struct memory_scope scope = memory_begin_scope();
    const unsigned list = memory_handle(), seat = memory_handle();
    const unsigned number = memory_start(run_thread);
    for (int i = arguments->count; i > 0; i--) {
        const unsigned item = argument(arguments, i - 1, NIL);
        memory_make(list, PAIR, (const uint32_t[]){[CDR] = list, [CAR] = item}, PAIR_SIZE);
    }
    memory_set(seat, word_of_integer(number));
    memory_make(target, THREAD, (const uint32_t[]){[RESULT] = NOTHING, [CALLED] = list, [SEAT] = seat}, THREAD_SIZE);
    memory_put_global(number, target);
    memory_end_scope(scope);
}

/* (join THREAD) waits until a thread has ended, and returns its value. The number of a thread becomes the empty list
 * when it is joined first. */
static void join(unsigned target, unsigned thread) {
    const struct memory_scope scope = memory_begin_scope();
    const unsigned seat = memory_handle();
    memory_get(seat, thread, SEAT);
    if (machine.atomics) fail("join in an atomic form");
    if (words[seat] == NIL) fail("a thread is joined twice");
    memory_put(thread, SEAT, NOTHING);
    memory_join((unsigned)integer_of(words[seat]));
    memory_put_global((unsigned)integer_of(words[seat]), NOTHING);
    memory_get(target, thread, RESULT);
    memory_end_scope(scope);
}

/* Joins each thread that nobody has joined. A thread may start others meanwhile, so each join begins a new search. */
void join_all(unsigned threads) {
    const struct memory_scope scope = memory_begin_scope();
    const unsigned thread = memory_handle(), seat = memory_handle();
    for (unsigned number = 1; number < threads; number++) {
        if (global_words[number] == NIL) continue;
        memory_get_global(thread, number);
        memory_get(seat, thread, SEAT);
        if (words[seat] == NIL) continue;
        join(seat, thread);
        number = 0;
    }
    memory_end_scope(scope);
}

/* The value of a primitive, in a register. */
static void primitive(uint64_t which, unsigned target, const struct arguments *arguments) {
    if (which <= LESS) {
        memory_set(target, calculate(which, arguments));
        return;
    }
    const enum kind kind = which == HEAD || which == TAIL || which == SET_TAIL ? PAIR : which == JOIN ? THREAD : NIL;
    const bool has_two = which == CONS || which == SET_TAIL || which == IS_SAME;
    const unsigned left = which <= JOIN ? argument(arguments, 0, kind) : NOTHING;
    const unsigned right = has_two ? argument(arguments, 1, NIL) : NOTHING;
    switch (which) {
    case CONS: memory_make(target, PAIR, (const uint32_t[]){[CDR] = right, [CAR] = left}, PAIR_SIZE); break;
    case HEAD: memory_get(target, left, CAR); break;
    case TAIL: memory_get(target, left, CDR); break;
    case SET_TAIL: memory_put(left, CDR, right); memory_copy(target, right); break;
    case IS_NULL: memory_set(target, truth_of(words[left] == NIL)); break;
    case IS_PAIR: memory_set(target, truth_of(words[left] == PAIR)); break;
    case IS_SAME: memory_set(target, truth_of(memory_same(left, right))); break;
    case DISPLAY: print_value(left); memory_copy(target, left); break;
    case JOIN: join(target, left); break;
    case SPAWN: spawn(target, arguments); break;
    default: putchar('\n'); memory_set(target, NIL); break;
    }
}

/* The procedure that is called: that of a word, which is a symbol's definition unless the symbol is -1. */
static const struct procedure *called(uint64_t word, int symbol, int count) {
    if (word == UNBOUND) fail(spelling((uint64_t)symbol));
    if (kind_of(word) != PROCEDURE && kind_of(word) != CLOSURE) fail("no procedure is called");
    const struct procedure *found = &procedures[number_of(word)];
    if (count < (int)found->parameters) fail("too few arguments");
    return found;
}

/* Copies the arguments of a procedure to its parameters, in a frame from a slot on. */
static void pass(const struct procedure *procedure, const struct arguments *arguments, int frame) {
    for (int i = 0; i < (int)procedure->parameters; i++) {
        const int slot = frame + FIRST_SLOT + i;
        if (arguments->slots[i] != slot) memory_copy(at(slot), at(arguments->slots[i]));
    }
}
static void call(const int32_t *at_call) {
    const int target = at_call[1], base = at_call[2], symbol = at_call[3];
    const struct arguments arguments = {at_call + CALL_WORDS, at_call[4]};
    const int32_t *next = arguments.slots + arguments.count;
    const uint64_t word = symbol < 0 ? words[at(base)] : global_words[DEFINITIONS + symbol];
    if (kind_of(word) == PRIMITIVE) {
        machine.next = target == base ? next : next + MOVE_WORDS;
        primitive(number_of(word), at(target), &arguments);
        return;
    }
    const struct procedure *procedure = called(word, symbol, arguments.count);
    if (kind_of(word) == CLOSURE && symbol >= 0) memory_get_global(at(base), DEFINITIONS + (unsigned)symbol);
    pass(procedure, &arguments, base);
    begin_frame(procedure, base, next - program);
}

/* The new procedure takes the frame of the one that calls it. */
static void tail_call(const int32_t *at_call) {
    const int base = at_call[2], symbol = at_call[3];
    const struct procedure *caller = &procedures[at_call[1]];
    const struct arguments arguments = {at_call + CALL_WORDS, at_call[4]};
    const uint64_t word = symbol < 0 ? words[at(base)] : global_words[DEFINITIONS + symbol];
    if (kind_of(word) == PRIMITIVE) {
        primitive(number_of(word), at(SELF), &arguments);
        end_frame(caller);
        return;
    }
    const struct procedure *procedure = called(word, symbol, arguments.count);
    if (symbol >= 0) memory_get_global(at(SELF), DEFINITIONS + (unsigned)symbol);
    else memory_copy(at(SELF), at(base));
    pass(procedure, &arguments, SELF);
    clear_slots(FIRST_SLOT + (int)procedure->parameters, caller);
    begin(procedure);
}
static void close_over(const int32_t *at_close) {
    const unsigned count = (unsigned)at_close[3];
    uint32_t sources[MOST_CAPTURED];
    for (unsigned i = 0; i < count; i++) sources[i] = at(at_close[CLOSE_WORDS + i]);
    memory_make(at(at_close[1]), word_of(CLOSURE, (uint64_t)at_close[2]), sources, count);
    machine.next += CLOSE_WORDS + count;
}
static void get_global(int target, int global) {
    if (global_words[global] == UNBOUND) fail(spelling((uint64_t)(global - DEFINITIONS)));
    memory_get_global(at(target), (unsigned)global);
}
static void run(void) {
    for (;;) {
        const int32_t *now = machine.next;
        switch ((enum instruction)now[0]) {
        case HALT: return;
        case CONSTANT: memory_set(at(now[1]), constants[now[2]]); break;
        case MOVE: memory_copy(at(now[1]), at(now[2])); break;
        case GLOBAL: get_global(now[1], now[2]); break;
        case CAPTURED: memory_get(at(now[1]), at(SELF), (unsigned)now[2]); break;
        case DEFINE: memory_put_global(DEFINITIONS + (unsigned)now[2], at(now[1])); break;
        case JUMP: machine.next += 1 + now[1]; continue;
        case IF_NOT: machine.next += words[at(now[1])] == NIL ? 2 + now[2] : 3; continue;
        case CLOSE: close_over(now); continue;
        case CALL: call(now); continue;
        case TAIL_CALL: tail_call(now); continue;
        case RETURN: end_frame(&procedures[now[1]]); continue;
        case ENTER: machine.atomics++; machine.next++; continue;
        case LEAVE: machine.atomics--; machine.next++; continue;
        }
        machine.next += 3;
    }
}

/* Calls what is in SELF, with its arguments in the slots of parameters. */
static void apply(const struct arguments *arguments) {
    const uint64_t word = words[at(SELF)];
    if (kind_of(word) == PRIMITIVE) primitive(number_of(word), at(SELF), arguments);
    else {
        begin_frame(called(word, -1, arguments->count), SELF, HALT);
        run();
    }
}
void run_procedure(uint32_t procedure) {
    begin_frame(&procedures[procedure], SELF, HALT);
    run();
    memory_set(at(SELF), NIL);
}
