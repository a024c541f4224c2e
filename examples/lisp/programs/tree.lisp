; A tree of 2,047 nodes, which is made and dropped 40 times beside one that stays.
(define (tree depth)
  (if (= depth 0) '() (cons (tree (- depth 1)) (tree (- depth 1)))))

(define (nodes tree)
  (if (null? tree) 0 (+ 1 (+ (nodes (car tree)) (nodes (cdr tree))))))

(define stays (tree 11))

(define (again times total)
  (if (= times 0) total (again (- times 1) (+ total (nodes (tree 11))))))

(display (again 40 0))
(newline)
(display (nodes stays))
(newline)
