# The identity, and functions that leave an argument aside.
let id = fun x -> x
let first = fun x -> fun y -> x
let second = fun x -> fun y -> y
let seven = fun x -> 7
let yes = true
