use plokamyr::{walk, Reply, State};

fn main() {
    for vl in [128, 512] {
        let mut state = State::new(vl, 1);
        let mut list = [0; 21];
        state.x[1] = 64;
        state.x[2] = 85;
        // bytes (size 0), start X1, limit X2, lanes P0, cursor P1; as many instructions as it takes
        let walked = walk(&state, 0, 1, 2, 0, 1, &mut list, u64::MAX);
        assert_eq!((walked.reply, walked.visited), (Reply::Done, 21));
        let (count, first, last) = (walked.count, list[0], list[20]);
        state = walked.state;
        println!("{vl} bits: {count} instructions, {first} to {last}");
        assert_eq!(state.x[1], 85);
    }
}
