//! The library through its C interface (include/vtoc.h), as a manager.

use crate::call::Manager;

extern "C" {
    fn vtoc_initialise(
        table: *mut u8, table_len: usize, c: u32, h: u32, d: u32, s: u32, v: u32, answer: *mut u8,
        answer_len: usize,
    ) -> u32;
    fn vtoc_allocate(
        table: *mut u8, table_len: usize, name: *const u8, name_len: usize, attributes: *const u8,
        attributes_len: usize, kind: u32, start: u32, amount: u32, secondary: u32, option: u32,
        expiry: *const u8, expiry_len: usize, answer: *mut u8, answer_len: usize,
    ) -> u32;
    fn vtoc_extend(
        table: *mut u8, table_len: usize, name: *const u8, name_len: usize, answer: *mut u8,
        answer_len: usize,
    ) -> u32;
    fn vtoc_release(
        table: *mut u8, table_len: usize, name: *const u8, name_len: usize, ttr: u32,
        answer: *mut u8, answer_len: usize,
    ) -> u32;
    fn vtoc_scratch(
        table: *mut u8, table_len: usize, name: *const u8, name_len: usize, today: *const u8,
        today_len: usize, overriding: u32, answer: *mut u8, answer_len: usize,
    ) -> u32;
    fn vtoc_rename(
        table: *mut u8, table_len: usize, old: *const u8, old_len: usize, new: *const u8,
        new_len: usize, answer: *mut u8, answer_len: usize,
    ) -> u32;
    fn vtoc_obtain(
        table: *const u8, table_len: usize, name: *const u8, name_len: usize, labels: *mut u8,
        labels_len: usize, answer: *mut u8, answer_len: usize,
    ) -> u32;
    fn vtoc_lspace(table: *const u8, table_len: usize, answer: *mut u8, answer_len: usize) -> u32;
    fn vtoc_preview_allocate(
        table: *const u8, table_len: usize, name: *const u8, name_len: usize,
        attributes: *const u8, attributes_len: usize, kind: u32, start: u32, amount: u32,
        secondary: u32, option: u32, expiry: *const u8, expiry_len: usize, answer: *mut u8,
        answer_len: usize,
    ) -> u32;
    fn vtoc_preview_extend(
        table: *const u8, table_len: usize, name: *const u8, name_len: usize, answer: *mut u8,
        answer_len: usize,
    ) -> u32;
    fn vtoc_preview_release(
        table: *const u8, table_len: usize, name: *const u8, name_len: usize, ttr: u32,
        answer: *mut u8, answer_len: usize,
    ) -> u32;
    fn vtoc_preview_scratch(
        table: *const u8, table_len: usize, name: *const u8, name_len: usize, today: *const u8,
        today_len: usize, overriding: u32, answer: *mut u8, answer_len: usize,
    ) -> u32;
    fn vtoc_date_to_stored(
        packed: *const u8, packed_len: usize, answer: *mut u8, answer_len: usize,
    ) -> u32;
    fn vtoc_date_to_packed(
        stored: *const u8, stored_len: usize, answer: *mut u8, answer_len: usize,
    ) -> u32;
}

/// The library. An empty buffer goes over as a null pointer, as it may from a host in C.
pub struct Library;

fn read(bytes: &[u8]) -> *const u8 {
    if bytes.is_empty() {
        std::ptr::null()
    } else {
        bytes.as_ptr()
    }
}

fn write(bytes: &mut [u8]) -> *mut u8 {
    if bytes.is_empty() {
        std::ptr::null_mut()
    } else {
        bytes.as_mut_ptr()
    }
}

// SAFETY, for each call: pointers and lengths are those of slices, which do not overlap.
impl Manager for Library {
    fn initialise(
        &self, table: &mut [u8], c: u32, h: u32, d: u32, s: u32, v: u32, answer: &mut [u8],
    ) -> u32 {
        let (t, a) = (table.len(), answer.len());
        unsafe { vtoc_initialise(write(table), t, c, h, d, s, v, write(answer), a) }
    }
    fn allocate(
        &self, table: &mut [u8], name: &[u8], attributes: &[u8], kind: u32, start: u32,
        amount: u32, secondary: u32, option: u32, expiry: &[u8], answer: &mut [u8],
    ) -> u32 {
        let (t, a) = (table.len(), answer.len());
        unsafe {
            vtoc_allocate(
                write(table),
                t,
                read(name),
                name.len(),
                read(attributes),
                attributes.len(),
                kind,
                start,
                amount,
                secondary,
                option,
                read(expiry),
                expiry.len(),
                write(answer),
                a,
            )
        }
    }
    fn extend(&self, table: &mut [u8], name: &[u8], answer: &mut [u8]) -> u32 {
        let (t, a) = (table.len(), answer.len());
        unsafe { vtoc_extend(write(table), t, read(name), name.len(), write(answer), a) }
    }
    fn release(&self, table: &mut [u8], name: &[u8], ttr: u32, answer: &mut [u8]) -> u32 {
        let (t, a) = (table.len(), answer.len());
        unsafe { vtoc_release(write(table), t, read(name), name.len(), ttr, write(answer), a) }
    }
    fn scratch(
        &self, table: &mut [u8], name: &[u8], today: &[u8], overriding: u32, answer: &mut [u8],
    ) -> u32 {
        let (t, n, d, a) = (table.len(), name.len(), today.len(), answer.len());
        let (table, answer) = (write(table), write(answer));
        unsafe { vtoc_scratch(table, t, read(name), n, read(today), d, overriding, answer, a) }
    }
    fn rename(&self, table: &mut [u8], old: &[u8], new: &[u8], answer: &mut [u8]) -> u32 {
        let (t, a) = (table.len(), answer.len());
        unsafe {
            vtoc_rename(
                write(table),
                t,
                read(old),
                old.len(),
                read(new),
                new.len(),
                write(answer),
                a,
            )
        }
    }
    fn obtain(&self, table: &[u8], name: &[u8], labels: &mut [u8], answer: &mut [u8]) -> u32 {
        let (l, a) = (labels.len(), answer.len());
        unsafe {
            vtoc_obtain(
                read(table),
                table.len(),
                read(name),
                name.len(),
                write(labels),
                l,
                write(answer),
                a,
            )
        }
    }
    fn lspace(&self, table: &[u8], answer: &mut [u8]) -> u32 {
        let a = answer.len();
        unsafe { vtoc_lspace(read(table), table.len(), write(answer), a) }
    }
    fn preview_allocate(
        &self, table: &[u8], name: &[u8], attributes: &[u8], kind: u32, start: u32, amount: u32,
        secondary: u32, option: u32, expiry: &[u8], answer: &mut [u8],
    ) -> u32 {
        let a = answer.len();
        unsafe {
            vtoc_preview_allocate(
                read(table),
                table.len(),
                read(name),
                name.len(),
                read(attributes),
                attributes.len(),
                kind,
                start,
                amount,
                secondary,
                option,
                read(expiry),
                expiry.len(),
                write(answer),
                a,
            )
        }
    }
    fn preview_extend(&self, table: &[u8], name: &[u8], answer: &mut [u8]) -> u32 {
        let (t, n, a) = (table.len(), name.len(), answer.len());
        unsafe { vtoc_preview_extend(read(table), t, read(name), n, write(answer), a) }
    }
    fn preview_release(&self, table: &[u8], name: &[u8], ttr: u32, answer: &mut [u8]) -> u32 {
        let (t, n, a) = (table.len(), name.len(), answer.len());
        unsafe { vtoc_preview_release(read(table), t, read(name), n, ttr, write(answer), a) }
    }
    fn preview_scratch(
        &self, table: &[u8], name: &[u8], today: &[u8], overriding: u32, answer: &mut [u8],
    ) -> u32 {
        let (t, n, d, a) = (table.len(), name.len(), today.len(), answer.len());
        let (table, name, today) = (read(table), read(name), read(today));
        unsafe { vtoc_preview_scratch(table, t, name, n, today, d, overriding, write(answer), a) }
    }
    fn date_to_stored(&self, packed: &[u8], answer: &mut [u8]) -> u32 {
        let a = answer.len();
        unsafe { vtoc_date_to_stored(read(packed), packed.len(), write(answer), a) }
    }
    fn date_to_packed(&self, stored: &[u8], answer: &mut [u8]) -> u32 {
        let a = answer.len();
        unsafe { vtoc_date_to_packed(read(stored), stored.len(), write(answer), a) }
    }
}
