# Lists: a list is what it does with a function for its elements and a value for its end.
import pairs
let empty = fun each -> fun end -> end
let put = fun x -> fun list -> fun each -> fun end -> each x (list each end)
let map = fun f -> fun list -> fun each -> fun end -> list (fun x -> each (f x)) end
let append = fun front -> fun back -> fun each -> fun end -> front each (back each end)
let sum = fun list -> list (fun x -> fun total -> x + total) 0
let length = fun list -> list (fun x -> fun count -> count + 1) 0
let zip_with = fun x -> map (pair x)
