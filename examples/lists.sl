(PRINT '(a (b . 2) -3))
(PRINT (CONS 'head '(x y z)))
(PRINT (CONS (PRINT 'first) (CONS (PRINT 'second) NIL)))
(PRINT ''quoted)
