; options: --cells 8000
; A fault in a thread ends that thread alone. Who awaits it has the fault, with its place.
(define bad (spawn (lambda ()
  (+ 1 (car 'x)))))
(define good (spawn (lambda () 'good)))
(await bad)
(print (await good))
(await bad)
(define (chain n) (if (= n 0) (error 'bottom) (+ 1 (await (spawn (lambda () (chain (- n 1))))))))
(chain 5)
(spawn 5)
(await (spawn 5))
(await (spawn (lambda (x) x)))
(await 5)
; 63 threads at most run alongside the first one. Those that wait hold their seats.
(define gate (atom nil))
(define (waits) (if (deref gate) 1 (begin (yield) (waits))))
(define (start n tasks) (if (= n 0) tasks (start (- n 1) (cons (spawn waits) tasks))))
(define tasks (start 63 nil))
(spawn waits)
(reset! gate t)
(print (fold + 0 (map await tasks)))
; Seats are used again.
(print (fold + 0 (map (lambda (i) (await (spawn (lambda () i)))) (range 0 200))))
