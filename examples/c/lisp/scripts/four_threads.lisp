; options: --cells 60000
; quick: 500
; Four threads add to one atom, a million times in all. Each addition is one compare and exchange,
; so none is lost.
; argument: how often each one does (250000)
(define n (if arguments (car arguments) 250000))
(define total (atom 0))
(define (add-ones)
  (let loop ((i 0)) (if (< i n) (begin (swap! total + 1) (loop (+ i 1))) i)))
(define done (map await (map (lambda (i) (spawn add-ones)) (range 0 4))))
(print (equal? done (list n n n n)) (= (deref total) (* 4 n)))
