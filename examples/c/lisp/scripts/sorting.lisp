; options: --cells 32000
; Three ways to sort the same 800 numbers.
(define (numbers n seed)
  (let loop ((i 0) (x seed) (xs nil))
    (if (= i n) xs (loop (+ i 1) (remainder (+ (* x 69069) 1) 4294967296)
                         (cons (quotient x 65536) xs)))))
(define xs (numbers 800 1))

(define (merge xs ys)
  (let loop ((xs xs) (ys ys) (done nil))
    (cond ((null? xs) (append (reverse done) ys))
          ((null? ys) (append (reverse done) xs))
          ((< (car ys) (car xs)) (loop xs (cdr ys) (cons (car ys) done)))
          (else (loop (cdr xs) ys (cons (car xs) done))))))
(define (split xs)
  (let loop ((xs xs) (one nil) (other nil))
    (if (null? xs) (cons one other) (loop (cdr xs) (cons (car xs) other) one))))
(define (merge-sort xs)
  (if (or (null? xs) (null? (cdr xs))) xs
      (let ((halves (split xs)))
        (merge (merge-sort (car halves)) (merge-sort (cdr halves))))))

(define (quick-sort xs)
  (if (null? xs) nil
      (let ((pivot (car xs)) (others (cdr xs)))
        (append (quick-sort (filter (lambda (x) (< x pivot)) others))
                (cons pivot (quick-sort (filter (lambda (x) (not (< x pivot))) others)))))))

(define (insert x tree)
  (cond ((null? tree) (list x nil nil))
        ((< x (car tree)) (list (car tree) (insert x (car (cdr tree))) (car (cdr (cdr tree)))))
        (else (list (car tree) (car (cdr tree)) (insert x (car (cdr (cdr tree))))))))
(define (in-order tree xs)
  (if (null? tree) xs
      (in-order (car (cdr tree)) (cons (car tree) (in-order (car (cdr (cdr tree))) xs)))))
(define (tree-sort xs) (in-order (fold (lambda (tree x) (insert x tree)) nil xs) nil))

(define (is-sorted xs)
  (or (null? xs) (null? (cdr xs)) (and (not (< (car (cdr xs)) (car xs))) (is-sorted (cdr xs)))))
(define by-merging (merge-sort xs))
(print (is-sorted xs) (is-sorted by-merging) (length by-merging))
(print (equal? by-merging (quick-sort xs)) (equal? by-merging (tree-sort xs)))
(print (merge-sort (numbers 20 7)))
