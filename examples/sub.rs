pub fn sub(a: u32) -> u32 { a - 1 }
