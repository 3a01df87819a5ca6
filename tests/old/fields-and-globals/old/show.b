get "kitten"
let show(v) be
   writef("%i3 %n %n*n", count, tag of v, link of v = 500 -> 1, 0)
