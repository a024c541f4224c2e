; Eight threads move money between accounts, and build lists and read them back, while the heap is collected; then eight
; more do. What is printed is the same in every schedule.
(define (numbers from to) (if (= from to) '() (cons from (numbers (+ from 1) to))))
(define (sum list total) (if (null? list) total (sum (cdr list) (+ total (car list)))))
(define (map procedure list) (if (null? list) '() (cons (procedure (car list)) (map procedure (cdr list)))))
(define (nth list n) (if (= n 0) (car list) (nth (cdr list) (- n 1))))

; The shared accounts, each with its balance after its number, and a shared list of the threads that have ended.
(define accounts (map (lambda (number) (cons number 1000)) (numbers 0 8)))
(define ended '())
(define (balance account) (cdr account))
(define (add account amount) (set-cdr! account (+ (balance account) amount)))
(define (total) (sum (map balance accounts) 0))

(define (move from to amount)
  (atomic
    (add (nth accounts from) (- 0 amount))
    (add (nth accounts to) amount)))

; What a thread does in each turn has to come out right: the accounts' total, and the sum of its own list.
(define (right?) (if (= (atomic (total)) 8000) (= (sum (numbers 0 40) 0) 780) '()))

(define (turns thread count seed right)
  (if (= count 0)
      (begin
        (atomic (define ended (cons thread ended)))
        (cons thread right))
      (let ((next (remainder (+ (* seed 1103515245) 12345) 2147483648)))
        (move (remainder (quotient next 8) 8) (remainder (quotient next 1024) 8) (remainder next 100))
        (turns thread (- count 1) next (if (right?) (+ right 1) right)))))

(define (all-turns threads) (map join (map (lambda (thread) (spawn turns thread 25 thread 0)) threads)))

(display (all-turns (numbers 1 9)))
(newline)
(display (all-turns (numbers 9 17)))
(newline)
(display (cons (total) (sum ended 0)))
(newline)
