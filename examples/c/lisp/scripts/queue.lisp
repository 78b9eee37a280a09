; options: --cells 16000
; quick: 50
; A queue that threads share: an atom of two lists, what was put in, newest first, and what is to be
; taken, oldest first. Two threads put numbers in and two take them out; no lock is needed.
; argument: how many each one puts in (2000)
(define n (if arguments (car arguments) 2000))
(define queue (atom (cons nil nil)))
(define (put! x) (swap! queue (lambda (q) (cons (cons x (car q)) (cdr q)))))
; The oldest item in a list, or nil if there is none.
(define (take!)
  (let ((q (deref queue)))
    (cond ((cdr q)
           (if (cas! queue q (cons (car q) (cdr (cdr q)))) (list (car (cdr q))) (take!)))
          ((car q) (cas! queue q (cons nil (reverse (car q)))) (take!))
          (else nil))))

(define (puts from)
  (let loop ((i 0)) (if (< i n) (begin (put! (+ from (* 2 i))) (loop (+ i 1))) 'put)))
; Takes n items, and checks that those of one thread come in order.
(define (takes)
  (let loop ((i 0) (sum 0) (last (list -1 -2)))
    (if (= i n) sum
        (let ((item (take!)))
          (cond ((null? item) (yield) (loop i sum last))
                ((= (remainder (car item) 2) 0)
                 (if (< (car (cdr last)) (car item))
                     (loop (+ i 1) (+ sum (car item)) (list (car last) (car item)))
                     (error 'out-of-order)))
                (else
                 (if (< (car last) (car item))
                     (loop (+ i 1) (+ sum (car item)) (list (car item) (car (cdr last))))
                     (error 'out-of-order))))))))
(define takers (list (spawn takes) (spawn takes)))
(define makers (list (spawn (lambda () (puts 0))) (spawn (lambda () (puts 1)))))
(print (map await makers))
(print (= (fold + 0 (map await takers)) (quotient (* (* 2 n) (- (* 2 n) 1)) 2)))
(print (take!) (deref queue))
