//! libFuzzer, and what it calls: for each input the judge, and to change an input what knows of blocks.

use crate::{seeds, trial};
use model::blocks::Kind;
use model::random::Random;
use model::FOOTPRINTS;
use std::env;
use std::ffi::{c_char, c_int, c_uint, c_void, CString};
use std::os::unix::ffi::OsStringExt;
use std::{ptr, slice};

extern "C" {
    fn LLVMFuzzerRunDriver(
        count: *mut c_int,
        words: *mut *mut *mut c_char,
        target: extern "C" fn(*const u8, usize) -> c_int,
    ) -> c_int;

    fn LLVMFuzzerMutate(input: *mut u8, length: usize, most: usize) -> usize;

    fn signal(number: c_int, handler: *const c_void) -> *const c_void;
}

/// The signals of wrong pointers.
const SIGBUS: c_int = 7;
const SIGSEGV: c_int = 11;

extern "C" fn target(start: *const u8, length: usize) -> c_int {
    let input = if length == 0 {
        &[]
    } else {
        // SAFETY: libFuzzer hands over so many bytes, which stay until this function ends.
        unsafe { slice::from_raw_parts(start, length) }
    };
    trial::judge(input);
    0
}

/// Puts blocks of any kind in the place of an input's last ones. Its last bytes are its blocks, and its second is mostly a footprint.
fn renew(input: &mut [u8], random: &mut Random) {
    let place = usize::from(input[1]) % FOOTPRINTS.len();
    let count = 1 + random.below(input.len() / 16);
    for old in input.rchunks_exact_mut(16).take(count) {
        let kind = Kind::of(random.number());
        old.copy_from_slice(&seeds::block(kind, place, random));
    }
}

/// Changes an input: as libFuzzer does, or by other blocks in the place of its own, or to a block of any kind. The new length.
#[no_mangle]
extern "C" fn LLVMFuzzerCustomMutator(
    start: *mut u8,
    length: usize,
    most: usize,
    seed: c_uint,
) -> usize {
    let random = &mut Random::new(seed.into());
    match random.below(4) {
        0 => {
            let block = seeds::any_block(random);
            let length = block.len().min(most);
            // SAFETY: libFuzzer hands over room for the most bytes.
            unsafe { ptr::copy_nonoverlapping(block.as_ptr(), start, length) };
            length
        }
        1 if length >= 16 => {
            // SAFETY: libFuzzer hands over so many bytes, which are this function's to change.
            renew(unsafe { slice::from_raw_parts_mut(start, length) }, random);
            length
        }
        // SAFETY: it is handed on what was handed over.
        _ => unsafe { LLVMFuzzerMutate(start, length, most) },
    }
}

/// Hands the program's words to libFuzzer; the status to end with.
pub fn run() -> u8 {
    // libFuzzer keeps the words, so that they are not taken back
    let mut words: Vec<*mut c_char> = env::args_os()
        .map(|word| CString::new(word.into_vec()).expect("a word has no zero in it"))
        .map(CString::into_raw)
        .collect();
    let mut count = words.len() as c_int;
    words.push(ptr::null_mut());
    let mut start = words.leak().as_mut_ptr();
    // SAFETY: the words are as many as they are said to be, each ends with a zero, and a null pointer ends them. The signals get back
    // their first handling, which Rust's start had changed: only then libFuzzer takes them for findings.
    unsafe {
        signal(SIGBUS, ptr::null());
        signal(SIGSEGV, ptr::null());
        LLVMFuzzerRunDriver(&mut count, &mut start, target) as u8
    }
}
