let id = fun x -> x
let pick = fun b -> if b then 1 else true
let pair = fun x -> fun y -> {fst = x, snd = y}
let rec count = fun n -> if n < 1 then 0 else count (n - 1)
let sum = let twice = fun f -> fun x -> f (f x) in twice (fun n -> n + 1) (pair 3 true).fst
