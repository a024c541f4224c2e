; How many ways there are to put eight queens on a board, none of which another one attacks.
(define (attacks column distance queens)
  (if (null? queens)
      '()
      (if (= (car queens) column)
          #t
          (if (= (car queens) (+ column distance))
              #t
              (if (= (car queens) (- column distance))
                  #t
                  (attacks column (+ distance 1) (cdr queens)))))))

(define (count-from column size queens left)
  (if (= column size)
      0
      (+ (if (attacks column 1 queens)
             0
             (ways size (cons column queens) (- left 1)))
         (count-from (+ column 1) size queens left))))

(define (ways size queens left)
  (if (= left 0) 1 (count-from 0 size queens left)))

(display (ways 8 '() 8))
(newline)
