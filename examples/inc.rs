pub fn inc(a: u32) -> u32 { let mut x: u32 = a; x = x + 1; x }
