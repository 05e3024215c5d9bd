# Pairs, as records of two fields.
let pair = fun first -> fun second -> {first = first, second = second}
let swap = fun p -> {first = p.second, second = p.first}
let map_first = fun f -> fun p -> {first = f p.first, second = p.second}
let both = fun f -> fun p -> {first = f p.first, second = f p.second}
