; A loop of 1,000,000 turns by a call in tail position, which takes no more memory than one of ten.
(define (count turns total)
  (if (= turns 0) total (count (- turns 1) (+ total 2))))

(display (count 1000000 0))
(newline)
