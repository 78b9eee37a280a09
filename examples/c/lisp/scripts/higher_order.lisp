; options: --cells 6000
; Functions as arguments and as results.
(print (map (lambda (x) (* x x)) (range 1 8)))
(print (filter (lambda (x) (= (remainder x 3) 0)) (range 0 20)))
(print (fold + 0 (range 0 101)) (fold (lambda (a x) (cons x a)) nil '(1 2 3)))
(each (lambda (x) (print "item" x)) '(a b))
(define (curry f . given) (lambda more (apply f (append given more))))
(print ((curry + 1 2) 3 4) (map (curry * 10) '(1 2 3)))
(define (repeat n f x) (if (= n 0) x (repeat (- n 1) f (f x))))
(print (repeat 10 (lambda (x) (* 2 x)) 1))
(define (find p xs) (cond ((null? xs) nil) ((p (car xs)) (list (car xs))) (else (find p (cdr xs)))))
(print (find (lambda (x) (> x 5)) '(1 4 9 16)) (find null? '(1)))

; Streams: a pair of an item and a function that gives the rest.
(define (stream-from n) (cons n (lambda () (stream-from (+ n 1)))))
(define (keep p s)
  (if (p (car s)) (cons (car s) (lambda () (keep p ((cdr s))))) (keep p ((cdr s)))))
(define (front n s) (if (= n 0) nil (cons (car s) (front (- n 1) ((cdr s))))))
(define (sieve s)
  (cons (car s)
        (lambda ()
          (sieve (keep (lambda (x) (> (remainder x (car s)) 0)) ((cdr s)))))))
(print (front 25 (sieve (stream-from 2))))

; What is done next, as a function.
(define (walk xs found missing)
  (cond ((null? xs) (missing))
        ((= (remainder (car xs) 7) 0) (found (car xs)))
        (else (walk (cdr xs) found missing))))
(print (walk '(3 5 21 8) (lambda (x) (list 'found x)) (lambda () 'missing)))
(print (walk '(3 5 8) (lambda (x) (list 'found x)) (lambda () 'missing)))
