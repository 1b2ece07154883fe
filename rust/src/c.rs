//! The C functions that `include/zhgarelli.h` declares, each with a safe wrapper that gives its numbers. Only this file has unsafe code.
//!
//! What the header asks of a caller holds in each wrapper: a pointer and its length come from one slice, which Rust keeps in place until
//! the function returns; what is written comes from a `&mut`, so nothing overlaps it; and the row of numbers is the wrapper's own.
#![allow(unsafe_code)]

mod declared {
    extern "C" {
        pub fn zhg_read(
            text: *const u8,
            text_bytes: usize,
            buffer: *mut u16,
            buffer_words: usize,
            out: *mut u64,
            out_len: usize,
        ) -> usize;

        pub fn zhg_write(
            img: *const u16,
            img_words: usize,
            buffer: *mut u8,
            buffer_bytes: usize,
            out: *mut u64,
            out_len: usize,
        ) -> usize;

        pub fn zhg_write2(
            img: *const u16,
            img_words: usize,
            buffer: *mut u8,
            buffer_bytes: usize,
            out: *mut u64,
            out_len: usize,
        ) -> usize;

        pub fn zhg_form2(
            text: *const u8,
            text_bytes: usize,
            buffer: *mut u8,
            buffer_bytes: usize,
            out: *mut u64,
            out_len: usize,
        ) -> usize;

        pub fn zhg_form1(
            text: *const u8,
            text_bytes: usize,
            buffer: *mut u8,
            buffer_bytes: usize,
            out: *mut u64,
            out_len: usize,
        ) -> usize;

        pub fn zhg_shape(img: *const u16, img_words: usize, out: *mut u64, out_len: usize)
            -> usize;

        pub fn zhg_check(img: *const u16, img_words: usize, out: *mut u64, out_len: usize)
            -> usize;

        pub fn zhg_scan(
            img: *const u16,
            img_words: usize,
            text: *const u8,
            text_bytes: usize,
            start: usize,
            set: u64,
            allowance: u32,
            out: *mut u64,
            out_len: usize,
        ) -> usize;

        pub fn zhg_parse(
            img: *const u16,
            img_words: usize,
            text: *const u8,
            text_bytes: usize,
            tree: *mut u16,
            tree_words: usize,
            allowance: u32,
            out: *mut u64,
            out_len: usize,
        ) -> usize;

        pub fn zhg_leaf(
            text: *const u8,
            text_bytes: usize,
            record: *const u16,
            record_words: usize,
            out: *mut u64,
            out_len: usize,
        ) -> usize;

        pub fn zhg_print(
            text: *const u8,
            text_bytes: usize,
            tree: *const u16,
            tree_words: usize,
            buffer: *mut u8,
            buffer_bytes: usize,
            out: *mut u64,
            out_len: usize,
        ) -> usize;
    }
}

/// The numbers of one call, which gets a row that has room for exactly them.
fn numbers<const N: usize>(call: impl FnOnce(*mut u64, usize) -> usize) -> [u64; N] {
    let mut row = [0; N];
    let given = call(row.as_mut_ptr(), N);
    debug_assert_eq!(given, N, "the row has room, so all numbers are given");
    row
}

/// Code and number.
pub fn read(text: &[u8], buffer: &mut [u16]) -> [u64; 2] {
    let (lent, words) = (buffer.as_mut_ptr(), buffer.len());
    numbers(|out, room| unsafe {
        declared::zhg_read(text.as_ptr(), text.len(), lent, words, out, room)
    })
}

/// Code and number.
pub fn write(image: &[u16], buffer: &mut [u8]) -> [u64; 2] {
    let (lent, bytes) = (buffer.as_mut_ptr(), buffer.len());
    numbers(|out, room| unsafe {
        declared::zhg_write(image.as_ptr(), image.len(), lent, bytes, out, room)
    })
}

/// Code and number.
pub fn write2(image: &[u16], buffer: &mut [u8]) -> [u64; 2] {
    let (lent, bytes) = (buffer.as_mut_ptr(), buffer.len());
    numbers(|out, room| unsafe {
        declared::zhg_write2(image.as_ptr(), image.len(), lent, bytes, out, room)
    })
}

/// Code and number.
pub fn form2(text: &[u8], buffer: &mut [u8]) -> [u64; 2] {
    let (lent, bytes) = (buffer.as_mut_ptr(), buffer.len());
    numbers(|out, room| unsafe {
        declared::zhg_form2(text.as_ptr(), text.len(), lent, bytes, out, room)
    })
}

/// Code and number.
pub fn form1(text: &[u8], buffer: &mut [u8]) -> [u64; 2] {
    let (lent, bytes) = (buffer.as_mut_ptr(), buffer.len());
    numbers(|out, room| unsafe {
        declared::zhg_form1(text.as_ptr(), text.len(), lent, bytes, out, room)
    })
}

/// Code and place.
pub fn shape(image: &[u16]) -> [u64; 2] {
    numbers(|out, room| unsafe { declared::zhg_shape(image.as_ptr(), image.len(), out, room) })
}

/// Code, number, first and second.
pub fn check(image: &[u16]) -> [u64; 4] {
    numbers(|out, room| unsafe { declared::zhg_check(image.as_ptr(), image.len(), out, room) })
}

/// Code, place, set, length and moves.
pub fn scan(image: &[u16], text: &[u8], start: usize, set: u64, allowance: u32) -> [u64; 5] {
    let (img, words, bytes) = (image.as_ptr(), image.len(), text.len());
    numbers(|out, room| unsafe {
        declared::zhg_scan(
            img,
            words,
            text.as_ptr(),
            bytes,
            start,
            set,
            allowance,
            out,
            room,
        )
    })
}

/// Code, place, length, terminal, records and moves.
pub fn parse(image: &[u16], text: &[u8], tree: &mut [u16], allowance: u32) -> [u64; 6] {
    let (img, img_words, bytes) = (image.as_ptr(), image.len(), text.len());
    let (lent, words) = (tree.as_mut_ptr(), tree.len());
    numbers(|out, room| unsafe {
        declared::zhg_parse(
            img,
            img_words,
            text.as_ptr(),
            bytes,
            lent,
            words,
            allowance,
            out,
            room,
        )
    })
}

/// Start and length.
pub fn leaf(text: &[u8], record: &[u16]) -> [u64; 2] {
    let (row, words) = (record.as_ptr(), record.len());
    numbers(|out, room| unsafe {
        declared::zhg_leaf(text.as_ptr(), text.len(), row, words, out, room)
    })
}

/// Code and number.
pub fn print(text: &[u8], tree: &[u16], buffer: &mut [u8]) -> [u64; 2] {
    let (records, words) = (tree.as_ptr(), tree.len());
    let (lent, bytes) = (buffer.as_mut_ptr(), buffer.len());
    numbers(|out, room| unsafe {
        declared::zhg_print(
            text.as_ptr(),
            text.len(),
            records,
            words,
            lent,
            bytes,
            out,
            room,
        )
    })
}
