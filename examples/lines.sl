(PRINT '(an atom that would end past column 80 begins a new line and parentheses
         and blanks and dots never break one))
(PRINT '(1 2 . 3))
