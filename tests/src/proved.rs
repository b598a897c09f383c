//! The proved code, through its C interface.

extern "C" {
    fn vtoc_probe_check(table: *const u8, table_len: usize) -> u32;
    fn vtoc_probe_extent(
        format_1: *const u8, len_1: usize, format_3: *const u8, len_3: usize, e: u32, i: u32,
    ) -> u32;
}

/// 0 for a table that is taken, else the refusal: 2 for its length, 3 for what it holds.
pub fn check(table: &[u8]) -> u32 {
    // SAFETY: a slice of Rattle is pointer and length; the function reads the table and no more.
    unsafe { vtoc_probe_check(table.as_ptr(), table.len()) }
}

/// The bytes of extent `e` in two records; the function tells the end by a number that is no byte.
pub fn extent(format_1: &[u8], format_3: &[u8], e: u32) -> Vec<u8> {
    let (one, three) = (format_1.as_ptr(), format_3.as_ptr());
    // SAFETY: slices of Rattle are pointer and length; the function reads the two records and no more.
    let byte = |i| unsafe { vtoc_probe_extent(one, format_1.len(), three, format_3.len(), e, i) };
    (0..).map_while(|i| u8::try_from(byte(i)).ok()).collect()
}
