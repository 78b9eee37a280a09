; options: --cells 4000
; Functions keep what was bound where they were made.
(define (adder n) (lambda (x) (+ x n)))
(define add3 (adder 3))
(define add10 (adder 10))
(print (add3 4) (add10 4) ((adder 1) 1))
(define (compose f g) (lambda (x) (f (g x))))
(print ((compose add3 add10) 0) (((lambda (x) (lambda (y) (- x y))) 9) 4))

; Two functions on one atom, which nobody else reaches.
(define (counter)
  (let ((n (atom 0)))
    (list (lambda () (swap! n + 1)) (lambda () (deref n)))))
(define one (counter))
(define other (counter))
((car one))
((car one))
((car other))
(print ((car (cdr one))) ((car (cdr other))))

; A binding hides another one of its name; forms of a let see the names before them.
(define x 'outer)
(define (show) x)
(print (let ((x 'inner) (y x)) (list x y (show))) x)
(print (let ((a 1) (b (+ a 1)) (c (* b 3))) (list a b c)))

; Numbers as functions.
(define zero (lambda (f) (lambda (x) x)))
(define (after n) (lambda (f) (lambda (x) (f ((n f) x)))))
(define (plus m n) (lambda (f) (lambda (x) ((m f) ((n f) x)))))
(define (numeral n) ((n (lambda (x) (+ x 1))) 0))
(define three (after (after (after zero))))
(print (numeral (plus three (after three))))

; A function that knows itself by no name.
(define (fix f) ((lambda (g) (g g)) (lambda (g) (f (lambda (n) ((g g) n))))))
(print ((fix (lambda (self) (lambda (n) (if (= n 0) 1 (* n (self (- n 1))))))) 15))

; All further arguments as a list.
(define (rest-of first . others) (list first others))
(print (rest-of 1) (rest-of 1 2 3) ((lambda all all) 1 2) (apply rest-of '(7 8 9)))
(rest-of)
(add3)
(add3 1 2)
