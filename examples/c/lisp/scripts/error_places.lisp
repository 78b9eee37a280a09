; options: --cells 4000
; Each fault has a name, and the row and column of the form in which it arose.
(car
  (cdr (list 1)))
(+ 1
   (* 2
      unknown))
unknown
(print "before")
(define (broken x)
  (let ((y (+ x 1)))
    (if (< y 10)
        (broken y)
        (car y))))
(broken 0)
("no function" 1 2)
(1 2 3)
(deref 5)
(await 'task)
(swap! (list 1) + 1)
(if)
(let ((x)) x)
(let (x) x)
(lambda)
(define if 5)
(define 5 5)
(let ((x 1)) (define y x))
((lambda (x x . 5) x) 1 2)
(+ 1 "2")
(cons 1)
(map (lambda (x)
       (quotient 10 x)) '(5 2 0 1))
(error 'mine)
(error (list "made" 'of 3))
; A value that is not there stays not there.
(define made (car nil))
made
; What was done before the fault is done.
(define a (atom 0))
(begin (reset! a 1) (car nil) (reset! a 2))
(print (deref a))
(print "after")
