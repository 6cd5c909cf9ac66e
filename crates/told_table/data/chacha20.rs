use hacspec_lib::*;
array!(State, 16, U32);
bytes!(Key, 32);
bytes!(Nonce, 12);
bytes!(Block, 64);
fn quarter(a: usize, b: usize, c: usize, d: usize, m: State) -> State {
    let mut s = m;
    s[a] = s[a] + s[b];
    s[d] = (s[d] ^ s[a]).rotate_left(16);
    s[c] = s[c] + s[d];
    s[b] = (s[b] ^ s[c]).rotate_left(12);
    s[a] = s[a] + s[b];
    s[d] = (s[d] ^ s[a]).rotate_left(8);
    s[c] = s[c] + s[d];
    s[b] = (s[b] ^ s[c]).rotate_left(7);
    s
}
fn double_round(m: State) -> State {
    let mut s = m;
    for i in 0..4 { s = quarter(i, i + 4, i + 8, i + 12, s); }
    s = quarter(0, 5, 10, 15, s);
    s = quarter(1, 6, 11, 12, s);
    s = quarter(2, 7, 8, 13, s);
    quarter(3, 4, 9, 14, s)
}
fn setup(key: Key, counter: U32, nonce: Nonce) -> State {
    let mut s = State::new();
    s[0] = U32(0x61707865u32);
    s[1] = U32(0x3320646eu32);
    s[2] = U32(0x79622d32u32);
    s[3] = U32(0x6b206574u32);
    for i in 0..8 { s[4 + i] = U32::from_le_bytes(&key.slice(4 * i, 4)); }
    s[12] = counter;
    for i in 0..3 { s[13 + i] = U32::from_le_bytes(&nonce.slice(4 * i, 4)); }
    s
}
pub fn block(key: Key, counter: U32, nonce: Nonce) -> Block {
    let start = setup(key, counter, nonce);
    let mut s = start;
    for i in 0..10 { s = double_round(s); }
    let mut out = Seq::<U8>::new(0);
    for i in 0..16 { out = out.concat(&(s[i] + start[i]).to_le_bytes()); }
    Block::from_seq(&out)
}
