get "kitten"
let start() be
{  let v = getvec(3)
   v!1 := 0; count := 2
   tag of v := 5
   link of v := tag of v * 100
   show(v)
}
