/* The compiler. Variables don't change, so a closure has copies of what it captures, and all other variables are in
 * slots of the stack. Code is C's memory, as it isn't garbage before the program ends. */
#include "lisp.h"

#include <stddef.h>

enum special { QUOTE, IF, DEFINE_NAME, LAMBDA, LET, BEGIN, ATOMIC, SPECIALS };
const char *const special_names[] = {"quote", "if", "define", "lambda", "let", "begin", "atomic", NULL};

enum { WORDS_OF_CODE = 1 << 20, CONSTANTS = 1 << 16, PROCEDURES = 1 << 14 };
int32_t program[WORDS_OF_CODE] = {HALT};
uint64_t constants[CONSTANTS];
struct procedure procedures[PROCEDURES];
static uint32_t code_size = 1, constant_count, procedure_count, quotation_count;

/* The procedure that is compiled: the variables in its slots, of which inner ones come later, and the names that it has
 * captured from the outer procedure, in order. */
struct function {
    struct function *outer;
    uint32_t number;
    int top; /* the first free slot */
    int count, captured_count;
    struct variable {
        int64_t name;
        int slot;
    } variables[MOST_SLOTS];
    int64_t captured[MOST_CAPTURED];
};

static void value_of(struct function *function, uint32_t node, int target, bool is_last);

static uint32_t emit(int32_t word) {
    if (code_size == WORDS_OF_CODE) fail("the program is too long");
    program[code_size] = word;
    return code_size++;
}
static void emit_instruction(enum instruction instruction, int first, int second) {
    emit(instruction);
    emit(first);
    emit(second);
}

/* A jump's operand, which is set when it is known where it goes: how far that is from the operand. */
static void land(uint32_t operand) { program[operand] = (int32_t)(code_size - operand); }

/* Takes the next slot, and the frame is as large as that needs. */
static int take_slot(struct function *function) {
    struct procedure *procedure = &procedures[function->number];
    const int slot = function->top++;
    if (slot + 1 >= MOST_SLOTS) fail("an expression is too large");
    if (function->top > (int)procedure->size) procedure->size = (uint32_t)function->top;
    return slot;
}

/* The item of a list that has a number, from 0 on. */
static uint32_t item_of(uint32_t list, int number) {
    uint32_t item = nodes[list].form == LIST ? nodes[list].first : 0;
    while (item && number-- > 0) item = nodes[item].next;
    if (!item) fail("a form has too few items");
    return item;
}
static int64_t name_in(uint32_t node) {
    if (nodes[node].form != NAME) fail("no name is defined");
    return nodes[node].value;
}

/* The slot of a variable, or 0. */
static int find_slot(const struct function *function, int64_t name) {
    for (int i = function->count; i > 0; i--)
        if (function->variables[i - 1].name == name) return function->variables[i - 1].slot;
    return 0;
}
static void add_variable(struct function *function, int64_t name, int slot) {
    if (function->count == MOST_SLOTS) fail("an expression is too large");
    function->variables[function->count++] = (struct variable){name, slot};
}

/* The field of a closure that has a variable of an outer procedure, captured now if it wasn't; -1 if there is none. */
static int find_captured(struct function *function, int64_t name) {
    for (int i = 0; i < function->captured_count; i++)
        if (function->captured[i] == name) return i;
    struct function *outer = function->outer;
    if (!outer || (!find_slot(outer, name) && find_captured(outer, name) < 0)) return -1;
    if (function->captured_count == MOST_CAPTURED) fail("a procedure captures too many variables");
    function->captured[function->captured_count] = name;
    return function->captured_count++;
}
static void name(struct function *function, int64_t symbol, int target) {
    const int slot = find_slot(function, symbol), field = slot ? 0 : find_captured(function, symbol);
    if (slot) emit_instruction(MOVE, target, slot);
    else if (field >= 0) emit_instruction(CAPTURED, target, field);
    else emit_instruction(GLOBAL, target, DEFINITIONS + (int)symbol);
}

/* The slot that has the value of an expression: that of a variable, or a new one. */
static int operand(struct function *function, uint32_t node) {
    const int slot = nodes[node].form == NAME ? find_slot(function, nodes[node].value) : 0;
    if (slot) return slot;
    const int target = take_slot(function);
    value_of(function, node, target, false);
    return target;
}
static void constant(uint64_t word, int target) {
    if (constant_count == CONSTANTS) fail("the program has too many constants");
    constants[constant_count] = word;
    emit_instruction(CONSTANT, target, (int)constant_count++);
}

/* Makes the value that a quoted node is. The stack has the outer lists as far as they are made, from their ends on. */
static void make_quoted(uint32_t node, unsigned target, unsigned list, unsigned stack) {
    const struct node *found = &nodes[node];
    if (found->form == INTEGER) memory_set(target, word_of_integer(found->value));
    if (found->form == NAME) memory_set(target, word_of(SYMBOL, (uint64_t)found->value));
    if (found->form != LIST) return;
    memory_make(stack, PAIR, (const uint32_t[]){[CDR] = stack, [CAR] = list}, PAIR_SIZE);
    memory_set(list, NIL);
    for (uint32_t item = found->last; item; item = nodes[item].previous) {
        make_quoted(item, target, list, stack);
        memory_make(list, PAIR, (const uint32_t[]){[CDR] = list, [CAR] = target}, PAIR_SIZE);
    }
    memory_copy(target, list);
    memory_get(list, stack, CAR);
    memory_get(stack, stack, CDR);
}
static void quotation(uint32_t node, int target) {
    const struct memory_scope scope = memory_begin_scope();
    const unsigned value = memory_handle();
    make_quoted(node, value, memory_handle(), memory_handle());
    if (kind_of(words[value]) != PAIR) constant(words[value], target);
    else {
        if (quotation_count == QUOTATIONS) fail("the program quotes too many lists");
        memory_put_global(QUOTED + quotation_count, value);
        emit_instruction(GLOBAL, target, QUOTED + (int)quotation_count++);
    }
    memory_end_scope(scope);
}
static void return_if(bool is_last, const struct function *function) {
    if (!is_last) return;
    emit(RETURN);
    emit((int)function->number);
}

/* The values of expressions one after another, from an item of a list on; the last one is that of the sequence. */
static void sequence(struct function *function, uint32_t item, int target, bool is_last) {
    if (!item) fail("a form has too few items");
    for (; nodes[item].next; item = nodes[item].next) {
        const int top = function->top;
        value_of(function, item, take_slot(function), false);
        function->top = top;
    }
    value_of(function, item, target, is_last);
}

/* (if TEST THEN ELSE); without ELSE that is the empty list. */
static void choice(struct function *function, uint32_t node, int target, bool is_last) {
    const uint32_t then = item_of(node, 2);
    const int top = function->top;
    emit_instruction(IF_NOT, operand(function, item_of(node, 1)), 0);
    const uint32_t to_else = code_size - 1;
    function->top = top;
    value_of(function, then, target, is_last);
    const uint32_t to_end = is_last ? 0 : emit(JUMP) + 1;
    if (!is_last) emit(0);
    land(to_else);
    if (nodes[then].next) value_of(function, nodes[then].next, target, is_last);
    else {
        constant(NIL, target);
        return_if(is_last, function);
    }
    if (!is_last) land(to_end);
}

/* Compiles a procedure, with a jump past it for the code that it is in. */
static void body(struct function *function, uint32_t parameter, uint32_t item) {
    struct procedure *procedure = &procedures[function->number];
    emit(JUMP);
    const uint32_t past = emit(0);
    *procedure = (struct procedure){code_size, 0, FIRST_SLOT};
    for (; parameter; parameter = nodes[parameter].next) {
        procedure->parameters++;
        add_variable(function, name_in(parameter), take_slot(function));
    }
    sequence(function, item, SELF, true);
    land(past);
}
static uint32_t new_procedure(void) {
    if (procedure_count == PROCEDURES) fail("the program has too many procedures");
    return procedure_count++;
}

/* A procedure of parameters and a body; or a closure, if that uses variables of outer procedures. */
static void procedure(struct function *outer, uint32_t parameter, uint32_t item, int target) {
    struct function inner = {.outer = outer, .number = new_procedure(), .top = FIRST_SLOT};
    int slots[MOST_CAPTURED];
    body(&inner, parameter, item);
    if (!inner.captured_count) {
        constant(word_of(PROCEDURE, inner.number), target);
        return;
    }
    const int top = outer->top;
    for (int i = 0; i < inner.captured_count; i++) {
        slots[i] = find_slot(outer, inner.captured[i]);
        if (!slots[i]) name(outer, inner.captured[i], slots[i] = take_slot(outer));
    }
    outer->top = top;
    emit_instruction(CLOSE, target, (int)inner.number);
    emit(inner.captured_count);
    for (int i = 0; i < inner.captured_count; i++) emit(slots[i]);
}

/* (define NAME VALUE) or (define (NAME PARAMETER ..) BODY ..). */
static void definition(struct function *function, uint32_t node, int target) {
    const uint32_t what = item_of(node, 1);
    const bool is_procedure = nodes[what].form == LIST;
    const int top = function->top, slot = target == SELF ? take_slot(function) : target;
    if (is_procedure) procedure(function, nodes[item_of(what, 0)].next, nodes[what].next, slot);
    else value_of(function, item_of(node, 2), slot, false);
    emit_instruction(DEFINE, slot, (int)name_in(is_procedure ? item_of(what, 0) : what));
    if (slot != target) emit_instruction(MOVE, target, slot);
    function->top = top;
}

/* (let ((NAME VALUE) ..) BODY ..): the names are bound after all values. */
static void let(struct function *function, uint32_t node, int target, bool is_last) {
    const int top = function->top, count = function->count;
    const uint32_t bindings = item_of(node, 1);
    for (uint32_t item = nodes[bindings].first; item; item = nodes[item].next)
        value_of(function, item_of(item, 1), take_slot(function), false);
    int slot = top;
    for (uint32_t item = nodes[bindings].first; item; item = nodes[item].next)
        add_variable(function, name_in(item_of(item, 0)), slot++);
    sequence(function, nodes[bindings].next, target, is_last);
    function->top = top;
    function->count = count;
}

/* (atomic BODY ..) evaluates a sequence without a safepoint, so no other thread runs during it. A shared counter is
 * counted by (atomic (set-cdr! counter (+ (cdr counter) 1))), and no count is lost. */
static void atomic(struct function *function, uint32_t item, int target) {
    emit(ENTER);
    sequence(function, item, target, false);
    emit(LEAVE);
}
static void special(struct function *function, enum special which, uint32_t node, int target, bool is_last) {
    switch (which) {
    case IF: choice(function, node, target, is_last); return;
    case LET: let(function, node, target, is_last); return;
    case BEGIN: sequence(function, item_of(node, 1), target, is_last); return;
    case QUOTE: quotation(item_of(node, 1), target); break;
    case DEFINE_NAME: definition(function, node, target); break;
    case LAMBDA: procedure(function, nodes[item_of(node, 1)].first, item_of(node, 2), target); break;
    default: atomic(function, item_of(node, 1), target); break;
    }
    return_if(is_last, function);
}

/* Whether an expression has a name. */
static bool mentions(uint32_t node, int64_t name) {
    if (nodes[node].form == NAME) return nodes[node].value == name;
    if (nodes[node].form != LIST) return false;
    for (uint32_t item = nodes[node].first; item; item = nodes[item].next)
        if (mentions(item, name)) return true;
    return false;
}

/* A call that is compiled: where its frame begins, and the slots of its arguments. */
struct call {
    int base, count;
    bool is_tail;
    int slots[MOST_SLOTS];
};

/* Where the next argument is computed: in the new frame. In tail position that is moved to this frame later; so it is
 * at once in its parameter's slot if no argument needs what that has now. */
static int place_of(const struct function *function, const struct call *call, uint32_t item) {
    const int parameter = FIRST_SLOT + call->count, place = call->base + parameter;
    if (!call->is_tail || call->count >= (int)procedures[function->number].parameters) return place;
    for (int i = 0; i < call->count; i++)
        if (call->slots[i] == parameter) return place;
    for (item = nodes[item].next; item; item = nodes[item].next)
        if (mentions(item, function->variables[call->count].name)) return place;
    return parameter;
}

/* A variable is an argument where it is; in tail position, unless an earlier argument comes to its slot. */
static void argument(struct function *function, struct call *call, uint32_t item) {
    const int parameter = FIRST_SLOT + call->count;
    int slot = nodes[item].form == NAME ? find_slot(function, nodes[item].value) : 0;
    function->top = call->base + parameter;
    take_slot(function);
    if (slot < (call->is_tail ? parameter : FIRST_SLOT)) {
        slot = place_of(function, call, item);
        value_of(function, item, slot, false);
    }
    call->slots[call->count++] = slot;
}

/* The symbol whose definition is called, or -1 if the procedure has to be computed. */
static int called_symbol(struct function *function, uint32_t node) {
    const int64_t name = nodes[node].value;
    if (nodes[node].form != NAME || find_slot(function, name) || find_captured(function, name) >= 0) return -1;
    return (int)name;
}

/* A call of what is a primitive now isn't one in tail position: its value comes to the target without a move. */
static void call(struct function *function, uint32_t node, int target, bool is_last) {
    const uint32_t procedure = item_of(node, 0);
    const int symbol = called_symbol(function, procedure);
    const bool is_primitive = symbol >= 0 && kind_of(global_words[DEFINITIONS + symbol]) == PRIMITIVE;
    struct call call = {.is_tail = is_last && !is_primitive};
    call.base = target == function->top - 1 ? target : take_slot(function);
    take_slot(function);
    if (symbol < 0) value_of(function, procedure, call.base, false);
    for (uint32_t item = nodes[procedure].next; item; item = nodes[item].next) argument(function, &call, item);
    emit_instruction(call.is_tail ? TAIL_CALL : CALL, call.is_tail ? (int)function->number : target, call.base);
    emit(symbol);
    emit(call.count);
    for (int i = 0; i < call.count; i++) emit(call.slots[i]);
    if (call.is_tail) return;
    if (call.base != target) emit_instruction(MOVE, target, call.base);
    return_if(is_last, function);
}

/* The code of an expression, whose value comes to a slot; if it is the last one of a procedure it returns. */
static void value_of(struct function *function, uint32_t node, int target, bool is_last) {
    const uint32_t first = nodes[node].form == LIST ? nodes[node].first : 0;
    const int top = function->top;
    if (first && nodes[first].form == NAME && nodes[first].value < SPECIALS)
        special(function, (enum special)nodes[first].value, node, target, is_last);
    else if (first) call(function, node, target, is_last);
    else {
        if (nodes[node].form == INTEGER) constant(word_of_integer(nodes[node].value), target);
        if (nodes[node].form == NAME) name(function, nodes[node].value, target);
        if (nodes[node].form == LIST) constant(NIL, target);
        return_if(is_last, function);
    }
    function->top = top;
}
uint32_t compile(uint32_t expression) {
    struct function function = {.number = new_procedure(), .top = FIRST_SLOT};
    body(&function, 0, expression);
    return function.number;
}
