# Lists: a list is what it does with a function for its elements and a value for its end.
val empty : top -> a -> a
val put : a -> (b -> c -> d) -> b & (a -> d -> e) -> c -> e
val map : (a -> b) -> ((a -> c) -> d -> e) -> (b -> c) -> d -> e
val append : (a -> b -> c) -> (a -> d -> b) -> a -> d -> c
val sum : ((int -> int -> int) -> int -> a) -> a
val length : ((top -> int -> int) -> int -> a) -> a
val zip_with : a -> ((b -> c) -> d -> e) -> ({first: a, second: b} -> c) -> d -> e
