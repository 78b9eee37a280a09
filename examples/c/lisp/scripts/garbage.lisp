; options: --cells 20000
; quick: 40
; Makes garbage for a while: many times what the heap has cells, while what is used stays flat.
; argument: how many rounds (300; on a quiet machine 10000 are a minute)
(define rounds (if arguments (car arguments) 300))
(define most (atom 0))
(define (look) (swap! most (lambda (m) (if (< m (used)) (used) m))))
(define kept (range 0 500))
(define (round i)
  (let ((xs (map (lambda (x) (* x i)) kept)))
    (look)
    (fold + 0 xs)))
(define total (let loop ((i 0) (sum 0)) (if (< i rounds) (loop (+ i 1) (+ sum (round i))) sum)))
(print (= total (* (quotient (* rounds (- rounds 1)) 2) 124750)))
(print (< 10 (cycles)) (< (deref most) 20000) (length kept))
