//! How fast a check can be: one plain pass over the table, and the check of floor.c.

extern "C" {
    fn floor_check(table: *const u8, length: usize) -> u32;
}

/// The check of floor.c: 0 for a table that is taken, else 2 for its length, 3 for what it holds.
pub fn check(table: &[u8]) -> u32 {
    // SAFETY: pointer and length are those of a slice, which the function only reads.
    unsafe { floor_check(table.as_ptr(), table.len()) }
}

/// All bytes of the table, eight at a time, or'ed into one word.
pub fn pass(table: &[u8]) -> u64 {
    let (words, rest) = table.as_chunks::<8>();
    let rest = rest.iter().fold(0, |all, &byte| all | u64::from(byte));
    words.iter().fold(rest, |all, word| all | u64::from_le_bytes(*word))
}
