# A small shop: what its goods cost, and who bought what.
import numbers
import pairs
import lists
let good = fun price -> fun stock -> {price = price, stock = stock}
let value = fun good -> good.price * good.stock
let tea = good 350 20
let cup = {price = 800, stock = 4, colour = {red = true}}
let goods = put tea (put cup empty)
let total = sum (map value goods)
let discounted = fun percent -> fun good -> {price = clamp {low = 0, high = good.price} (good.price - percent), stock = good.stock}
let sale = map (discounted 50) goods
let best = swap (pair total (sum (map value sale)))
