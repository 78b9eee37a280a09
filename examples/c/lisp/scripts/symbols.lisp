; options: --cells 4000
; A name is one symbol wherever it is read, and a global name has one value for all threads.
(print (eq? 'a 'a) (eq? 'a 'b) (eq? 'a "a") (symbol? 'a) (symbol? "a") (symbol? nil))
(print t nil else 't 'nil)
(define a 1)
(print a)
(define a 2)
(print a (let ((a 3)) a) a)
(define nothing nil)
(print nothing (null? nothing))
(print '+ 'a-b 'is-it? 'set! '<=> '-)
(print (eq? 'Case 'case) (car '(Case)))

; Threads find symbols that the others read, and define names that the others see.
(define (all-same xs) (fold (lambda (a x) (and a (eq? x (car xs)))) t xs))
(print (all-same (map await (map (lambda (i) (spawn (lambda () (car '(here))))) (range 0 8)))))
(define seen (atom nil))
(define (set-it v) (await (spawn (lambda () (reset! seen v)))))
(set-it 'from-a-thread)
(print (deref seen) (eq? (deref seen) 'from-a-thread))

; A list of symbols as a set.
(define (member? x xs) (if xs (or (eq? x (car xs)) (member? x (cdr xs)))))
(define (adjoin x xs) (if (member? x xs) xs (cons x xs)))
(print (reverse (fold (lambda (set x) (adjoin x set)) nil '(a b a c b d))))
