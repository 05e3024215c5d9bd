# Counters: each step gives the next counter.
val from : int -> rec a. {count: int, step: int -> a}
val zero : rec a. {count: int, step: int -> a}
val tick : {step: int -> a} -> a
