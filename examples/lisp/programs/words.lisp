; What is read and printed; closures that keep what they saw; names that are bound inside; a deep recursion.
(define (adder n) (lambda (x) (+ x n)))
(define add-3 (adder 3))

(define (deep n) (if (= n 0) 0 (+ 1 (deep (- n 1)))))

(define ring (cons 1 (cons 2 '())))
(set-cdr! (cdr ring) ring)

(define (show value) (display value) (newline))

(show '(a (b . c) () ((d)) -7 . e))
(show ''quoted)
(show (let ((x (add-3 4)) (add-3 (adder 100))) (cons x (add-3 1))))
(show (car (cdr (cdr (cdr ring)))))
(show (deep 5000))
(show (begin 1 2 (eq? 'a 'a)))
(show (cons (quotient -7 2) (remainder -7 2)))
(show add-3)
