// The walk with byte elements, from x0 up to x1. The first stores the positions visited from x2 on; the second visits only.
        .arch armv8-a+sve2
        .text

        .global walk_positions
        .type walk_positions, %function
walk_positions:
        ptrue   p3.b
        pfalse  p1.b
1:      whilelo p0.b, x0, x1
        b.none  4f
2:      pnext   p1.b, p0, p1.b
        b.none  3f
        brkb    p2.b, p3/z, p1.b        // the lanes below the true one: their number is its own
        cntp    x4, p3, p2.b
        add     x4, x0, x4
        str     x4, [x2], #8
        b       2b
3:      incp    x0, p0.b
        b       1b
4:      ret
        .size walk_positions, . - walk_positions

        .global walk_bare
        .type walk_bare, %function
walk_bare:
        pfalse  p1.b
1:      whilelo p0.b, x0, x1
        b.none  4f
2:      pnext   p1.b, p0, p1.b
        b.any   2b
        incp    x0, p0.b
        b       1b
4:      ret
        .size walk_bare, . - walk_bare
