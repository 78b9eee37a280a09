; options: --cells 20000
; quick: 500
; Tail calls take no stack: in a named let, between functions, and at the end of each special form.
; argument: how often, an even number (50000)
(define n (if arguments (car arguments) 50000))
(define (sum-to n) (let loop ((i 1) (sum 0)) (if (< n i) sum (loop (+ i 1) (+ sum i)))))
(print (= (sum-to n) (quotient (* n (+ n 1)) 2)))
(define (is-even n) (if (= n 0) t (is-odd (- n 1))))
(define (is-odd n) (if (= n 0) nil (is-even (- n 1))))
(print (is-even n) (is-odd n))
(define (ends n)
  (cond ((= n 0) 'ended)
        ((= (remainder n 4) 0) (begin 1 (ends (- n 1))))
        ((= (remainder n 4) 1) (let ((m (- n 1))) (ends m)))
        ((= (remainder n 4) 2) (and t (ends (- n 1))))
        (else (or nil (ends (- n 1))))))
(print (ends n))
(define (by-apply n) (if (= n 0) 'applied ((lambda xs (by-apply (- (car xs) 1))) n)))
(print (by-apply n))
