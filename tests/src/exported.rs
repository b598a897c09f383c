//! The reference with the library's fourteen C functions: a stand-in to try hosts and tests with
//! before the library is built, or beside it. `tests/stand_in DIR` makes an archive of it.

use crate::reference;

/// # Safety
/// `at` points to `len` bytes, or `len` is 0.
unsafe fn lent<'a>(at: *const u8, len: usize) -> &'a [u8] {
    if len == 0 {
        &[]
    } else {
        std::slice::from_raw_parts(at, len)
    }
}

/// # Safety
/// `at` points to `len` bytes that nothing else points to, or `len` is 0.
unsafe fn lent_mut<'a>(at: *mut u8, len: usize) -> &'a mut [u8] {
    if len == 0 {
        &mut []
    } else {
        std::slice::from_raw_parts_mut(at, len)
    }
}

/// # Safety
/// As include/vtoc.h asks of a host; and so for the others.
#[no_mangle]
pub unsafe extern "C" fn vtoc_initialise(
    table: *mut u8, table_len: usize, c: u32, h: u32, d: u32, s: u32, v: u32, answer: *mut u8,
    answer_len: usize,
) -> u32 {
    let (table, answer) = (lent_mut(table, table_len), lent_mut(answer, answer_len));
    reference::initialise(table, c, h, d, s, v, answer)
}

/// # Safety
/// See `vtoc_initialise`.
#[no_mangle]
pub unsafe extern "C" fn vtoc_allocate(
    table: *mut u8, table_len: usize, name: *const u8, name_len: usize, attributes: *const u8,
    attributes_len: usize, kind: u32, start: u32, amount: u32, secondary: u32, option: u32,
    expiry: *const u8, expiry_len: usize, answer: *mut u8, answer_len: usize,
) -> u32 {
    let (table, answer) = (lent_mut(table, table_len), lent_mut(answer, answer_len));
    let (name, attributes) = (lent(name, name_len), lent(attributes, attributes_len));
    let expiry = lent(expiry, expiry_len);
    reference::allocate(
        table, name, attributes, kind, start, amount, secondary, option, expiry, answer,
    )
}

/// # Safety
/// See `vtoc_initialise`.
#[no_mangle]
pub unsafe extern "C" fn vtoc_extend(
    table: *mut u8, table_len: usize, name: *const u8, name_len: usize, answer: *mut u8,
    answer_len: usize,
) -> u32 {
    let (table, answer) = (lent_mut(table, table_len), lent_mut(answer, answer_len));
    reference::extend(table, lent(name, name_len), answer)
}

/// # Safety
/// See `vtoc_initialise`.
#[no_mangle]
pub unsafe extern "C" fn vtoc_release(
    table: *mut u8, table_len: usize, name: *const u8, name_len: usize, ttr: u32, answer: *mut u8,
    answer_len: usize,
) -> u32 {
    let (table, answer) = (lent_mut(table, table_len), lent_mut(answer, answer_len));
    reference::release(table, lent(name, name_len), ttr, answer)
}

/// # Safety
/// See `vtoc_initialise`.
#[no_mangle]
pub unsafe extern "C" fn vtoc_scratch(
    table: *mut u8, table_len: usize, name: *const u8, name_len: usize, today: *const u8,
    today_len: usize, overriding: u32, answer: *mut u8, answer_len: usize,
) -> u32 {
    let (table, answer) = (lent_mut(table, table_len), lent_mut(answer, answer_len));
    let (name, today) = (lent(name, name_len), lent(today, today_len));
    reference::scratch(table, name, today, overriding, answer)
}

/// # Safety
/// See `vtoc_initialise`.
#[no_mangle]
pub unsafe extern "C" fn vtoc_rename(
    table: *mut u8, table_len: usize, old: *const u8, old_len: usize, new: *const u8,
    new_len: usize, answer: *mut u8, answer_len: usize,
) -> u32 {
    let (table, answer) = (lent_mut(table, table_len), lent_mut(answer, answer_len));
    reference::rename(table, lent(old, old_len), lent(new, new_len), answer)
}

/// # Safety
/// See `vtoc_initialise`.
#[no_mangle]
pub unsafe extern "C" fn vtoc_obtain(
    table: *const u8, table_len: usize, name: *const u8, name_len: usize, labels: *mut u8,
    labels_len: usize, answer: *mut u8, answer_len: usize,
) -> u32 {
    let (labels, answer) = (lent_mut(labels, labels_len), lent_mut(answer, answer_len));
    reference::obtain(lent(table, table_len), lent(name, name_len), labels, answer)
}

/// # Safety
/// See `vtoc_initialise`.
#[no_mangle]
pub unsafe extern "C" fn vtoc_lspace(
    table: *const u8, table_len: usize, answer: *mut u8, answer_len: usize,
) -> u32 {
    reference::lspace(lent(table, table_len), lent_mut(answer, answer_len))
}

/// # Safety
/// See `vtoc_initialise`.
#[no_mangle]
pub unsafe extern "C" fn vtoc_preview_allocate(
    table: *const u8, table_len: usize, name: *const u8, name_len: usize, attributes: *const u8,
    attributes_len: usize, kind: u32, start: u32, amount: u32, secondary: u32, option: u32,
    expiry: *const u8, expiry_len: usize, answer: *mut u8, answer_len: usize,
) -> u32 {
    let (table, answer) = (lent(table, table_len), lent_mut(answer, answer_len));
    let (name, attributes) = (lent(name, name_len), lent(attributes, attributes_len));
    let expiry = lent(expiry, expiry_len);
    reference::preview_allocate(
        table, name, attributes, kind, start, amount, secondary, option, expiry, answer,
    )
}

/// # Safety
/// See `vtoc_initialise`.
#[no_mangle]
pub unsafe extern "C" fn vtoc_preview_extend(
    table: *const u8, table_len: usize, name: *const u8, name_len: usize, answer: *mut u8,
    answer_len: usize,
) -> u32 {
    let (table, answer) = (lent(table, table_len), lent_mut(answer, answer_len));
    reference::preview_extend(table, lent(name, name_len), answer)
}

/// # Safety
/// See `vtoc_initialise`.
#[no_mangle]
pub unsafe extern "C" fn vtoc_preview_release(
    table: *const u8, table_len: usize, name: *const u8, name_len: usize, ttr: u32,
    answer: *mut u8, answer_len: usize,
) -> u32 {
    let (table, answer) = (lent(table, table_len), lent_mut(answer, answer_len));
    reference::preview_release(table, lent(name, name_len), ttr, answer)
}

/// # Safety
/// See `vtoc_initialise`.
#[no_mangle]
pub unsafe extern "C" fn vtoc_preview_scratch(
    table: *const u8, table_len: usize, name: *const u8, name_len: usize, today: *const u8,
    today_len: usize, overriding: u32, answer: *mut u8, answer_len: usize,
) -> u32 {
    let (table, answer) = (lent(table, table_len), lent_mut(answer, answer_len));
    let (name, today) = (lent(name, name_len), lent(today, today_len));
    reference::preview_scratch(table, name, today, overriding, answer)
}

/// # Safety
/// See `vtoc_initialise`.
#[no_mangle]
pub unsafe extern "C" fn vtoc_date_to_stored(
    packed: *const u8, packed_len: usize, answer: *mut u8, answer_len: usize,
) -> u32 {
    reference::date_to_stored(lent(packed, packed_len), lent_mut(answer, answer_len))
}

/// # Safety
/// See `vtoc_initialise`.
#[no_mangle]
pub unsafe extern "C" fn vtoc_date_to_packed(
    stored: *const u8, stored_len: usize, answer: *mut u8, answer_len: usize,
) -> u32 {
    reference::date_to_packed(lent(stored, stored_len), lent_mut(answer, answer_len))
}
