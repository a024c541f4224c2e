#!/bin/sh
# The Lisp of examples/lisp on the library for C. Each program prints its expected output, in 64 MiB and in the smallest
# heap of pages of 512 words that is enough, verified at intervals and at the end; with one frame less it reports that
# the heap is full. Programs are collected, completely and in parts. The compiler and the machine give the expected
# values for variables, captured variables, tail calls and deep recursion. The program of eight threads prints its output
# several times in a small heap that the collector's thread collects, and under a race detector, if there is one; errors
# end a program with a message. The library is ./libpauseless.a, or the first argument.

cd "$(dirname "$0")/.." || exit 1
quiet=1
. tests/begin.sh
. tests/counting.sh
library=${1:-./libpauseless.a}
CC=${CC:-cc}
lisp=$kept/lisp

# prints NAME WORDS..: whether a program prints what stands beside it.
prints() {
    name=$1
    shift
    "$lisp" "$@" "examples/lisp/programs/$name.lisp" > "$kept/output" 2> "$kept/errors" \
        && cmp -s "$kept/output" "examples/lisp/programs/$name.expected"
    told "$name in $*" $?
}

# tries NAME FRAMES OBJECTS: a program in 64 MiB; in FRAMES frames, verified after each OBJECTS objects; in one less.
tries() {
    prints "$1" -w 4096 -f 2048 -v 100000
    prints "$1" -w 512 -f "$2" -v "$3"
    "$lisp" -w 512 -f $(($2 - 1)) "examples/lisp/programs/$1.lisp" > "$kept/output" 2> "$kept/errors"
    [ $? = 1 ] && grep -q '^lisp: there are too few' "$kept/errors"
    told "$1 in $(($2 - 1)) frames" $?
}

# collects NAME WORDS..: whether a program prints what it should, and is collected.
collects() {
    prints "$@" -s
    grep -q ' objects, [1-9][0-9]* collections,' "$kept/errors"
    told "$* is collected" $?
}

# build FLAGS..: the Lisp.
build() {
    $CC -std=c11 -O2 -Wall -Wextra -Werror -Iinclude examples/lisp/main.c examples/lisp/machine.c \
        examples/lisp/compile.c examples/lisp/text.c examples/lisp/memory.c "$library" -pthread "$@" -o "$lisp"
    told "the Lisp is built $*" $?
}

# says MESSAGE TEXT: that a program of this text, with three threads at once, ends with the message.
says() {
    echo "$2" > "$kept/program.lisp"
    "$lisp" -t 3 "$kept/program.lisp" > "$kept/output" 2> "$kept/errors"
    [ $? = 1 ] && [ "$(cat "$kept/errors")" = "lisp: $1" ]
    told "$1" $?
}

# gives VALUE TEXT: that a program of this text prints the value, in a small heap that is verified after each object.
gives() {
    echo "$2" > "$kept/program.lisp"
    [ "$("$lisp" -w 256 -f 90 -v 1 "$kept/program.lisp" 2>&1)" = "$1" ]
    told "$1 of $2" $?
}

build

tries words 121 100
tries queens 3 500
tries tree 42 20000
tries sort 481 50000
prints loop -w 4096 -f 2048 -v 1
prints loop -w 512 -f 1 -v 1

collects words -w 512 -f 121
collects queens -w 512 -f 3
collects tree -w 512 -f 42
collects sort -w 512 -f 481

# Collections in parts, which end in time with many frames, and in few frames seldom.
collects queens -w 512 -f 16 -b 2000 -v 500
collects queens -w 512 -f 4 -b 100 -v 500
collects tree -w 512 -f 100 -b 20000 -v 20000
collects tree -w 512 -f 64 -b 500
collects sort -w 512 -f 700 -b 20000

# Variables: inner ones, ones that are bound at once, captured by a closure and by one in it.
gives '(1 2 . 3)' "(define (f a b) (let ((a b) (b a)) (let ((c 3)) (cons b (cons a c))))) (display (f 1 2))"
gives '(3 2 1)' "(define (f a) (lambda (b) (lambda (c) (cons c (cons b (cons a '()))))))
    (define g ((f 1) 2)) (display (g 3))"
gives '(a (b . c) d)' "(define x 'c) (define (f x y) (lambda () (cons x (cons y '(d))))) (display ((f 'a (cons 'b x))))"
gives '8' "(define (f a) (if (< a 1) (lambda (b) (+ a b)) (f (- a 1)))) (display ((f 5) 8))"

# Calls in tail position: variables that change places, one that is needed later, and a procedure with more of them.
gives '(2 . 1)' '(define (f n a b) (if (= n 0) (cons a b) (f (- n 1) b a))) (display (f 3 1 2))'
gives '(5 4 3 2 1)' "(define (f l r) (if (null? l) r (f (cdr l) (cons (car l) r)))) (display (f '(1 2 3 4 5) '()))"
gives '(2 3 4 1)' "(define (f a b c d) (if (= a 2) (cons a (cons b (cons c (cons d '())))) (f b c d a)))
    (display (f 1 2 3 4))"
gives '11' '(define (g a b c d) (+ (* a b) (+ c d))) (define (f a) (let ((b 2) (c 3)) (g b c a (+ a 1))))
    (display (f 2))'
gives '5' "(define (f) (h 5 '(1 2))) (define (h a l) (if (null? l) a (h a (cdr l)))) (display (f))"

# A primitive that gets another definition; one that is an argument; and more arguments than a procedure has.
gives '(7 . 7)' '(define (f a) (+ a 1)) (define (+ a b) 7) (define (g a) (* (+ a 1) 1)) (display (cons (f 1) (g 1)))'
gives '(1 . 2)' '(define (f g a b) (g a b)) (display (f cons 1 2))'
gives '3' '(define (f a) (if a a 4)) (display (f 3 4 5 6))'

# Recursions that are deeper than the registers, with objects in each frame; and one in the argument of another.
gives '125250' "(define (f n l) (if (= n 0) 0 (+ (car l) (f (- n 1) (cons (- n 1) l))))) (display (f 500 '(500)))"
gives '300' "(define (f n l) (if (= n 0) 0 (+ (car l) (f (- n 1) l))))
    (define (g n) (if (= n 0) 0 (+ (f 300 '(1)) (- (g (- n 1)) (f 300 '(1)))))) (display (+ 300 (g 9)))"

says 'x' '(define (f) x) (f)'
says 'f' '(f 1)'
says 'no procedure is called' "((car '(1)) 2)"
says 'too few arguments' '(define (f a b) a) (f 1)'
says 'too few arguments' '(cons 1)'
says 'an argument of another kind' "(car 'a)"
says 'an argument of another kind' "(+ 1 '(1))"
says 'a divisor below 1' '(quotient 1 0)'
says 'a form has too few items' '(if #t)'
gives '(1)' "(display (cons (if #t 1) (if '() 2)))"
says 'no name is defined' '(define 5 5)'
says 'a bracket is missing' '(car'
says 'a bracket too many' 'car)'

# Eight threads, whose order is another one in each run; in some orders 12 frames are too few.
prints threads -v 5000
for run in 1 2 3 4 5 6 7 8; do
    prints threads -w 512 -f 20 -t 9 -v 5000 -s
    cat "$kept/errors" >> "$kept/all"
done
grep -q ' [1-9][0-9]* collections between portions' "$kept/all"
told 'the collector of threads collects' $?
"$lisp" -w 512 -f 6 -t 9 examples/lisp/programs/threads.lisp > "$kept/output" 2> "$kept/errors"
[ $? = 1 ] && grep -q '^lisp: there are too few' "$kept/errors"
told 'threads in 6 frames' $?

# Threads that nobody joins end before the program does; the number of one that was joined serves another one.
echo "(define (f) (display 7)) (spawn f) (join (spawn f)) (join (spawn f)) (spawn f)" > "$kept/program.lisp"
[ "$("$lisp" -t 3 "$kept/program.lisp")" = 7777 ]
told 'all threads end' $?
says 'there are too many threads' '(define (f) (f)) (spawn f) (spawn f) (spawn f)'
says 'a thread is joined twice' "(define t (spawn car '(1))) (join t) (join t)"
says 'a thread waits for itself' "
    (define named '())
    (define ready '())
    (define (f) (if named (begin (define ready #t) (join t)) (f)))
    (define (wait) (if ready ready (wait)))
    (define t (spawn f))
    (define named #t)
    (wait)"
says 'join in an atomic form' "(atomic (join (spawn car '(1))))"
says 'an argument of another kind' "(join (spawn car 1))"
says 'no procedure is called' "(join (spawn 1))"
says 'too few arguments' "(spawn)"

echo 'int main(void) { return 0; }' > "$kept/races.c"
if $CC -fsanitize=thread "$kept/races.c" -o "$kept/races" 2> "$kept/errors" && "$kept/races"; then
    build -fsanitize=thread
    prints threads -w 512 -f 20 -t 9
fi
echo "$passed passed, $failed failed"
[ "$failed" = 0 ]
