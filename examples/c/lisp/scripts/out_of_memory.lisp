; options: --cells 8000
; More lists than the heap has cells: a fault, after which all stands as it was before the form, and
; what the form made is free again.
(define thousand (range 0 1000))
(define a (atom 'before))
(range 0 1000000)
(print (length thousand) (deref a))
(define big (range 0 100000))
big
(begin (reset! a 'during) (range 0 100000) (reset! a 'after))
(print (deref a))
(define (drop n) (if (= n 0) 'done (begin (append thousand nil) (drop (- n 1)))))
(print (drop 50))
; The same in a thread: whoever awaits it has the fault, and the cells are free again.
(await (spawn (lambda ()
  (range 0 1000000))))
(print (drop 10) (await (spawn (lambda () (length (append thousand thousand))))))
; What is kept on purpose fills the heap. A form that makes little still works, since the prompt
; keeps some cells for that, and once the list is dropped there is room.
(define kept (atom nil))
(define (fill)
  (reset! kept (append thousand (deref kept)))
  (fill))
(fill)
(print (< 2000 (length (deref kept))))
(fill)
(reset! kept nil)
(print (drop 10))
