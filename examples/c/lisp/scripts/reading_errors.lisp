; options: --cells 4000
; A form that cannot be read is left out as a whole, and the next one is read.
(print "one"))
(print "two")
99999999999999999999
(print 2305843009213693952 (print "not this"))
(print -2305843009213693952)
(print "three" (list 1 ; a parenthesis ( in here does not count
  2305843009213693952 "nor ) in here" (print "nor this")))
(print '(1 . 2) '(1 2 . 3) '(1 . (2 3)))
'(. 1)
(list 'a . b)
'(1 . 2 3)
(print "four" 'a-name-that-is-longer-than-sixty-four-bytes-is-no-name-any-more-12345678)
(print "a text of two lines
is one" "tab	\"quotes\" and \\")
("a text that is too long: 0123456789 0123456789 0123456789 0123456789 0123456789 0123456789 0123456789 0123456789 0123456789 0123456789 0123456789 0123456789 0123456789 0123456789 0123456789 0123456789 0123456789 0123456789 0123456789 0123456789 0123456789 0123456789 0123456789 0123456789 0123456789" (print "nor this"))
(print "ünïcödé" (list unbound-behind-it))
   (print "five") (car 'six) (print "seven")
(print "eight" (list "nine
