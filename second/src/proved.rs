//! The proved library as an engine, over the C functions that `include/zhgarelli.h` declares.
//!
//! Each call asserts more than its numbers: the function answers how many numbers it gives and leaves the rest of `out` as it was; and in
//! a call of its own, where `out` is one number too short, it answers 0 and leaves all of it.

use crate::check::Checked;
use crate::engine::Engine;
use crate::numbers::RECORD_WORDS;
use crate::parse::Parsed;
use crate::print::Printed;
use crate::scan::Scanned;
use crate::sets::Set;
use crate::shape::Shaped;
use crate::text::Written;

extern "C" {
    fn zhg_shape(img: *const u16, img_words: usize, out: *mut u64, out_len: usize) -> usize;

    fn zhg_scan(
        img: *const u16,
        img_words: usize,
        text: *const u8,
        text_bytes: usize,
        start: usize,
        set: u64,
        allowance: u32,
        out: *mut u64,
        out_len: usize,
    ) -> usize;

    fn zhg_read(
        text: *const u8,
        text_bytes: usize,
        buffer: *mut u16,
        buffer_words: usize,
        out: *mut u64,
        out_len: usize,
    ) -> usize;

    fn zhg_write(
        img: *const u16,
        img_words: usize,
        buffer: *mut u8,
        buffer_bytes: usize,
        out: *mut u64,
        out_len: usize,
    ) -> usize;

    fn zhg_write2(
        img: *const u16,
        img_words: usize,
        buffer: *mut u8,
        buffer_bytes: usize,
        out: *mut u64,
        out_len: usize,
    ) -> usize;

    fn zhg_form2(
        text: *const u8,
        text_bytes: usize,
        buffer: *mut u8,
        buffer_bytes: usize,
        out: *mut u64,
        out_len: usize,
    ) -> usize;

    fn zhg_form1(
        text: *const u8,
        text_bytes: usize,
        buffer: *mut u8,
        buffer_bytes: usize,
        out: *mut u64,
        out_len: usize,
    ) -> usize;

    fn zhg_check(img: *const u16, img_words: usize, out: *mut u64, out_len: usize) -> usize;

    fn zhg_parse(
        img: *const u16,
        img_words: usize,
        text: *const u8,
        text_bytes: usize,
        tree: *mut u16,
        tree_words: usize,
        allowance: u32,
        out: *mut u64,
        out_len: usize,
    ) -> usize;

    fn zhg_leaf(
        text: *const u8,
        text_bytes: usize,
        record: *const u16,
        record_words: usize,
        out: *mut u64,
        out_len: usize,
    ) -> usize;

    fn zhg_print(
        text: *const u8,
        text_bytes: usize,
        tree: *const u16,
        tree_words: usize,
        buffer: *mut u8,
        buffer_bytes: usize,
        out: *mut u64,
        out_len: usize,
    ) -> usize;
}

/// What `out` holds before a call.
const BEFORE: u64 = 0x5A5A_5A5A_5A5A_5A5A;
/// More room than any function needs.
const ROOM: usize = 8;

/// The numbers of one call.
fn numbers<const N: usize>(call: impl Fn(*mut u64, usize) -> usize) -> [u64; N] {
    let mut out = [BEFORE; ROOM];
    assert_eq!(call(out.as_mut_ptr(), N - 1), 0, "out is too short");
    assert_eq!(out, [BEFORE; ROOM], "an out that is too short is left");
    assert_eq!(call(out.as_mut_ptr(), ROOM), N, "how many numbers");
    let (front, rest) = out.split_at(N);
    assert!(rest.iter().all(|&n| n == BEFORE), "the rest of out is left");
    front.try_into().expect("the front has N numbers")
}

/// The same, each of them below 2 to the 32nd.
fn small<const N: usize>(call: impl Fn(*mut u64, usize) -> usize) -> [u32; N] {
    numbers(call).map(|number: u64| number.try_into().expect("the number has 32 bits"))
}

// Safety, in each call: a pointer comes with the length of its slice, and `out` with its room.

fn shape(image: &[u16]) -> Shaped {
    let [code, place] =
        small(|out, room| unsafe { zhg_shape(image.as_ptr(), image.len(), out, room) });
    Shaped { code, place }
}

fn scan(image: &[u16], text: &[u8], start: usize, set: Set, allowance: u32) -> Scanned {
    let (img, words, bytes) = (image.as_ptr(), image.len(), text.len());
    let [code, place, set, length, moves] = numbers(|out, room| unsafe {
        zhg_scan(
            img,
            words,
            text.as_ptr(),
            bytes,
            start,
            set,
            allowance,
            out,
            room,
        )
    });
    let [code, place, length, moves] =
        [code, place, length, moves].map(|n| n.try_into().expect("the number has 32 bits"));
    Scanned {
        code,
        place,
        set,
        length,
        moves,
    }
}

fn read(text: &[u8], room: &mut [u16]) -> Written {
    let (lent, words) = (room.as_mut_ptr(), room.len());
    let [code, number] =
        small(|out, room| unsafe { zhg_read(text.as_ptr(), text.len(), lent, words, out, room) });
    Written { code, number }
}

fn write(image: &[u16], room: &mut [u8]) -> Written {
    let (lent, bytes) = (room.as_mut_ptr(), room.len());
    let [code, number] = small(|out, room| unsafe {
        zhg_write(image.as_ptr(), image.len(), lent, bytes, out, room)
    });
    Written { code, number }
}

fn write2(image: &[u16], room: &mut [u8]) -> Written {
    let (lent, bytes) = (room.as_mut_ptr(), room.len());
    let [code, number] = small(|out, room| unsafe {
        zhg_write2(image.as_ptr(), image.len(), lent, bytes, out, room)
    });
    Written { code, number }
}

fn form2(text: &[u8], room: &mut [u8]) -> Written {
    let (lent, bytes) = (room.as_mut_ptr(), room.len());
    let [code, number] =
        small(|out, room| unsafe { zhg_form2(text.as_ptr(), text.len(), lent, bytes, out, room) });
    Written { code, number }
}

fn form1(text: &[u8], room: &mut [u8]) -> Written {
    let (lent, bytes) = (room.as_mut_ptr(), room.len());
    let [code, number] =
        small(|out, room| unsafe { zhg_form1(text.as_ptr(), text.len(), lent, bytes, out, room) });
    Written { code, number }
}

fn check(image: &[u16]) -> Checked {
    let [code, numbers @ ..]: [u32; 4] =
        small(|out, room| unsafe { zhg_check(image.as_ptr(), image.len(), out, room) });
    Checked { code, numbers }
}

fn parse(image: &[u16], text: &[u8], tree: &mut [u16], allowance: u32) -> Parsed {
    let (img, img_words, bytes) = (image.as_ptr(), image.len(), text.len());
    let (lent, words) = (tree.as_mut_ptr(), tree.len());
    let [code, place, length, terminal, records, moves] = small(|out, room| unsafe {
        zhg_parse(
            img,
            img_words,
            text.as_ptr(),
            bytes,
            lent,
            words,
            allowance,
            out,
            room,
        )
    });
    Parsed {
        code,
        place,
        length,
        terminal,
        records,
        moves,
    }
}

/// A row of fewer words than a record is a bad record, and of more words the first four count.
fn leaf(text: &[u8], words: [u16; RECORD_WORDS]) -> (usize, usize) {
    let part = |record: &[u16]| -> [u32; 2] {
        small(|out, room| unsafe {
            zhg_leaf(
                text.as_ptr(),
                text.len(),
                record.as_ptr(),
                record.len(),
                out,
                room,
            )
        })
    };
    let [start, length] = part(&words);
    for few in 0..RECORD_WORDS {
        assert_eq!(part(&words[..few]), [0, 0], "a row of {few} words");
    }
    let [a, b, c, d] = words;
    assert_eq!(part(&[a, b, c, d, a]), [start, length], "a word more");
    (start as usize, length as usize)
}

fn print(text: &[u8], tree: &[u16], room: &mut [u8]) -> Printed {
    let (lent, bytes) = (room.as_mut_ptr(), room.len());
    let [code, number] = numbers(|out, room| unsafe {
        zhg_print(
            text.as_ptr(),
            text.len(),
            tree.as_ptr(),
            tree.len(),
            lent,
            bytes,
            out,
            room,
        )
    });
    let code = code.try_into().expect("the code has 32 bits");
    Printed { code, number }
}

pub const PROVED: Engine = Engine {
    name: "proved",
    shape,
    scan,
    read,
    write,
    write2,
    form2,
    form1,
    check,
    parse,
    leaf,
    print,
};
