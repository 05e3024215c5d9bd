# Pairs, as records of two fields.
val pair : a -> b -> {first: a, second: b}
val swap : {first: a, second: b} -> {first: b, second: a}
val map_first : (a -> b) -> {first: a, second: c} -> {first: b, second: c}
val both : (a -> b) -> {first: a, second: a} -> {first: b, second: b}
