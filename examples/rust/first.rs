fn main() {
    let mut state = plokamyr::State::new(128, 1);
    state.x[1..3].copy_from_slice(&[10, 13]);
    let reply = state.step(0x25A2_1C20); // WHILELO p0.s, x1, x2
    println!("reply {}, p0 {:04x}", reply.number(), state.p()[0].words[0]);
}
