# Functions of integers.
let negate = fun n -> 0 - n
let absolute = fun n -> if n < 0 then 0 - n else n
let least = fun m -> fun n -> if n < m then n else m
let clamp = fun bounds -> fun n ->
  if n < bounds.low then bounds.low else if bounds.high < n then bounds.high else n
let rec repeat = fun n -> fun f -> fun x -> if n < 1 then x else repeat (n - 1) f (f x)
