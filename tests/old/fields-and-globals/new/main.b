GET "kitten"
LET START() BE
$( LET TEMP.1 = VEC 4000; INITVEC(TEMP.1, 4000); $(  LET v = GETVEC(3)
   v!1 := 0; count := 2
   v!tag.WORD := (v!tag.WORD & ~tag.MASK) | (((5) << tag.SHIFT) & tag.MASK)
   v!link.WORD := (v!link.WORD & ~link.MASK) | (((((v!tag.WORD & tag.MASK) >> tag.SHIFT) * 100) << link.SHIFT) & link.MASK)
   show(v)
$) $)
