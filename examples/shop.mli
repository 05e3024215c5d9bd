# A small shop: what its goods cost. How the lists of its goods are made is not told.
val tea : {price: int, stock: int}
val cup : {price: int, stock: int}
val total : int
val discounted : int -> {price: int, stock: a} -> {price: int, stock: a}
val best : {first: int, second: int}
