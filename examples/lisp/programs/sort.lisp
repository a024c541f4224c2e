; 10,000 numbers without order, sorted by halves; each is behind one that is as small, and their sum is the same.
(define (numbers count seed made)
  (if (= count 0)
      made
      (let ((next (remainder (+ (* seed 1103515245) 12345) 2147483648)))
        (numbers (- count 1) next (cons (remainder next 1000000) made)))))

(define (merge left right)
  (if (null? left)
      right
      (if (null? right)
          left
          (if (< (car right) (car left))
              (cons (car right) (merge left (cdr right)))
              (cons (car left) (merge (cdr left) right))))))

(define (each-second list)
  (if (null? list)
      '()
      (if (null? (cdr list))
          list
          (cons (car list) (each-second (cdr (cdr list)))))))

(define (sort list)
  (if (null? list)
      list
      (if (null? (cdr list))
          list
          (merge (sort (each-second list)) (sort (each-second (cdr list)))))))

(define (sorted? list)
  (if (null? (cdr list))
      #t
      (if (< (car (cdr list)) (car list)) '() (sorted? (cdr list)))))

(define (sum list total)
  (if (null? list) total (sum (cdr list) (+ total (car list)))))

(define unsorted (numbers 10000 42 '()))
(define result (sort unsorted))
(display (sorted? unsorted))
(newline)
(display (sorted? result))
(newline)
(display (- (sum unsorted 0) (sum result 0)))
(newline)
(display (cons (car result) (car (cdr result))))
(newline)
