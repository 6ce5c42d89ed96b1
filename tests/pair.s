// A pair of which the second is past the limit, counts of its first, and what they saturate at.
whilelo { p2.s, p3.s }, x1, x2
whilelt p4.b, w1, w2            // three bytes
incp    x1, p2.s
uqincp  w5, p4.b                // the low word of X5 is at its largest
sqdecp  x6, p2.s, w6
uqdecp  x7, p2.d                // not below zero
