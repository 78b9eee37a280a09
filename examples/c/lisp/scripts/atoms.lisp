; options: --cells 4000
; Atoms are the only cells that change.
(define a (atom 1))
(print a (deref a) (reset! a 2) (deref a))
(print (swap! a + 10) (swap! a (lambda (x y z) (list x y z)) 'y 'z) (deref a))
(print (cas! a 5 6) (deref a))
(define old (deref a))
(print (cas! a old 6) (deref a) (cas! a 6 7) (cas! a 6 8) (deref a))
; An exchange compares cells, and not what is in them.
(reset! a (list 1))
(print (cas! a (list 1) 'equal) (cas! a (deref a) 'same) (deref a))
(reset! a nil)
(print (cas! a nil "was nil") (deref a))
; A function that fails leaves the atom as it was.
(define n (atom 5))
(swap! n (lambda (x) (car x)))
(print (deref n))
; An atom in a swap of itself: the outer exchange finds another value, and begins again.
(define tries (atom 0))
(print (swap! n (lambda (x) (if (< (swap! tries + 1) 3) (swap! n + 1)) (* x 10))) (deref tries))
; Stacks and graphs of atoms.
(define stack (atom nil))
(define (push! x) (swap! stack (lambda (xs) (cons x xs))))
(define (pop!) (let ((xs (deref stack))) (if (cas! stack xs (cdr xs)) (car xs) (pop!))))
(each push! '(1 2 3))
(print (pop!) (pop!) (deref stack))
(define ring (let ((x (atom nil)) (y (atom x))) (reset! x y) x))
(print (eq? ring (deref (deref ring))))
(deref nil)
(reset! 1 2)
