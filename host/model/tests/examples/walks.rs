//! The walk.

use crate::*;

/// Walks .S from `start` to `limit` with X1, X2, P3 and P4, with a list longer by two than it need be.
pub fn walk_s(start: u64, limit: u64, budget: u64) -> (Walked, Vec<u64>) {
    let mut state = ready();
    (state.x[1], state.x[2]) = (start, limit);
    let mut list = vec![77; limit.saturating_sub(start) as usize + 2];
    let walked = walk(&state, 2, 1, 2, 3, 4, &mut list, budget);
    (walked, list)
}

/// "The count is fixed by D + 3R + 2", and the end is as the paper says.
#[test]
fn walks_that_finish() {
    for (start, limit) in [(10, 13), (10, 14), (0, 21), (5, 5), (9, 2), (u64::MAX - 9, u64::MAX)] {
        let distance = limit.saturating_sub(start);
        let need = distance + 3 * distance.div_ceil(4) + 2;
        let (walked, list) = walk_s(start, limit, u64::MAX);
        assert_eq!((walked.reply, walked.count, walked.visited as u64), (0, need, distance));
        assert_eq!(walked.state.x[1], start.max(limit));
        assert_eq!((walked.state.p[3], walked.state.p[4], walked.state.flags), (low(0), low(0), nzc(0, 1, 1)));
        let mut positions: Vec<u64> = (start..limit).collect();
        positions.extend([77, 77]);
        assert_eq!(list, positions);
        assert_eq!(walk_s(start, limit, need).0.reply, 0);
        assert_eq!(walk_s(start, limit, need - 1).0.reply, 12);
    }
}

#[test]
fn a_walk_cut_short() {
    let (walked, list) = walk_s(10, 13, 4); // PFALSE, WHILELO, PNEXT, PNEXT
    assert_eq!((walked.reply, walked.count, walked.visited), (12, 4, 2));
    assert_eq!(list, [10, 11, 77, 77, 77]);
    assert_eq!((walked.state.p[3], walked.state.p[4]), (low(0x0111), low(0x0010)));
    let (walked, list) = walk_s(10, 13, 0);
    assert_eq!((walked.reply, walked.count, walked.visited, list), (12, 0, 0, vec![77; 5]));
}

#[test]
fn refusals_of_a_walk_in_their_order() {
    let mut state = ready();
    (state.level, state.access, state.x[2], state.vl) = (0, false, 1, 100);
    assert_eq!(walk(&state, 9, 1, 1, 1, 1, &mut [], 0).reply, 4);
    state.vl = 256;
    let bad = [[4, 1, 2, 3, 4], [0, 31, 2, 3, 4], [0, 1, 32, 3, 4], [0, 1, 1, 3, 4], [0, 1, 2, 16, 4], [0, 1, 2, 3, 3]];
    for [size, n, m, d, k] in bad {
        assert_eq!(walk(&state, size, n, m, d, k, &mut [], 0).reply, 10);
    }
    assert_eq!(walk(&state, 0, 1, 2, 3, 4, &mut [], 0).reply, 2);
    state.level = 1;
    assert_eq!(walk(&state, 0, 1, 2, 3, 4, &mut [], 0).reply, 3);
    state.access = true;
    assert_eq!(walk(&state, 0, 1, 2, 3, 4, &mut [], 0).reply, 11);
    assert_eq!(walk(&state, 0, 1, 2, 3, 4, &mut [0], 0).reply, 12);
    assert_eq!(walk(&state, 0, 1, 31, 3, 4, &mut [], 2).reply, 0); // a limit of zero
}
