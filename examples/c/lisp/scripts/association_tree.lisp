; options: --cells 20000
; quick: 20
; A map that never changes: an insertion gives a new tree, which shares all but a path with the one
; before it. Threads read old versions while others put new ones into one atom, without a lock.
; argument: how many keys of each thread (400)
(define n (if arguments (car arguments) 400))

; A node is (priority key value left . right); a treap, so that any order of keys gives a flat tree.
(define (node p k v l r) (cons p (cons k (cons v (cons l r)))))
(define (priority x) (car x))
(define (key x) (car (cdr x)))
(define (content x) (car (cdr (cdr x))))
(define (left x) (car (cdr (cdr (cdr x)))))
(define (right x) (cdr (cdr (cdr (cdr x)))))
(define (mix k) (remainder (* (+ k 7919) 1103515245) 2147483647))

(define (with k v x)
  (cond ((null? x) (node (mix k) k v nil nil))
        ((= k (key x)) (node (priority x) k v (left x) (right x)))
        ((< k (key x))
         (let ((l (with k v (left x))))
           (if (< (priority l) (priority x))
               (node (priority x) (key x) (content x) l (right x))
               (node (priority l) (key l) (content l) (left l)
                     (node (priority x) (key x) (content x) (right l) (right x))))))
        (else
         (let ((r (with k v (right x))))
           (if (< (priority r) (priority x))
               (node (priority x) (key x) (content x) (left x) r)
               (node (priority r) (key r) (content r)
                     (node (priority x) (key x) (content x) (left x) (left r)) (right r)))))))
(define (at k x)
  (cond ((null? x) nil)
        ((= k (key x)) (content x))
        ((< k (key x)) (at k (left x)))
        (else (at k (right x)))))
(define (size x) (if x (+ 1 (size (left x)) (size (right x))) 0))
(define (depth x)
  (if x (let ((l (depth (left x))) (r (depth (right x)))) (+ 1 (if (< l r) r l))) 0))
(define (is-ordered x low high)
  (or (null? x)
      (and (< low (key x)) (< (key x) high) (is-ordered (left x) low (key x))
           (is-ordered (right x) (key x) high))))

(define one (fold (lambda (x k) (with k (* k k) x)) nil (range 0 100)))
(define two (with 50 'changed one))
(print (size one) (at 50 one) (at 50 two) (at 51 two) (at 100 two) (eq? (left one) (left two)))

(define shared (atom nil))
(define (put-all k step)
  (let loop ((i 0) (k k))
    (if (< i n)
        (begin (swap! shared (lambda (x) (with k (+ k 1) x))) (loop (+ i 1) (+ k step))))))
; A reader sees one version at a time: what is in it is whole, and no key is lost.
(define (watch rounds)
  (let loop ((i 0) (before 0))
    (if (= i rounds) 'whole
        (let ((x (deref shared)) (now (size x)))
          (if (and (not (< now before)) (is-ordered x -1 1000000))
              (begin (yield) (loop (+ i 1) now))
              (error 'torn))))))
(define tasks
  (append (map (lambda (k) (spawn (lambda () (put-all k 3)))) '(0 1 2))
          (list (spawn (lambda () (watch 10))))))
(print (map await tasks))
(define x (deref shared))
(print (= (size x) (* 3 n)) (is-ordered x -1 1000000) (< (depth x) 40))
(print (fold (lambda (a k) (and a (= (at k x) (+ k 1)))) t (range 0 (* 3 n))))
