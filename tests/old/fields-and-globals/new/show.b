GET "kitten"
LET show(v) BE
   WRITEF("%i3 %n %n*n", count, ((v!tag.WORD & tag.MASK) >> tag.SHIFT), ((v!link.WORD & link.MASK) >> link.SHIFT) = 500 -> 1, 0)
