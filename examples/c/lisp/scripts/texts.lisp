; options: --cells 4000
; Texts are of at most 252 bytes. They are compared and printed, and that is all.
(define a "a text")
(print a (text? a) (text? 'a) (eq? a a) (eq? a "a text") (equal? a "a text") (equal? a "a test"))
(print (list a "" "two\nlines" "a \"quote\"") (equal? "" "") (equal? "" nil))
(print "12345678901234567890" "123456789012345678901" "1234567890123456789012")
(define long "000000000 111111111 222222222 333333333 444444444 555555555 666666666 777777777 888888888 999999999 ")
(print long)
(print (equal? long "000000000 111111111 222222222 333333333 444444444 555555555 666666666 777777777 888888888 999999999 ")
       (equal? long "000000000 111111111 222222222 333333333 444444444 555555555 666666666 777777777 888888888 999999999."))
(print "grüße, ÿ, 語")
(+ a 1)
(car a)
(a)
