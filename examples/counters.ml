# Counters: each step gives the next counter.
let rec from = fun count -> {count = count, step = fun by -> from (count + by)}
let zero = from 0
let tick = fun counter -> counter.step 1
