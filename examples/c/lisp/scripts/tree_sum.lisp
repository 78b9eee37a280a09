; options: --cells 24000
; The sum of a tree by threads: each one gives the left branch to another thread, down to a depth.
(define (tree depth n)
  (if (= depth 0) n (cons (tree (- depth 1) (* 2 n)) (tree (- depth 1) (+ (* 2 n) 1)))))
(define (sum x) (if (pair? x) (+ (sum (car x)) (sum (cdr x))) x))
(define (sum-by-threads x levels)
  (if (or (= levels 0) (not (pair? x))) (sum x)
      (let ((left (spawn (lambda () (sum-by-threads (car x) (- levels 1)))))
            (right (sum-by-threads (cdr x) (- levels 1))))
        (+ (await left) right))))
(define big (tree 13 0))
(print (sum big))
(print (map (lambda (levels) (sum-by-threads big levels)) (range 0 6)))
; A task is awaited as often as one likes.
(define task (spawn (lambda () (list 1 2 3))))
(print (await task) (eq? (await task) (await task)) task)
