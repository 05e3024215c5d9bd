# Functions of integers.
val negate : int -> int
val absolute : int -> int
val least : int -> int -> int
val clamp : {low: int, high: int} -> int -> int
# repeat n f x applies f to x n times
val repeat : int -> (a -> a) -> a -> a
