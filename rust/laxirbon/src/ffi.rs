//! The border to the library. All that is unsafe in this crate stands here.
//!
//! The library is proved (`crates/lower_c`): it reads the document, writes at most the buffer that it is handed, keeps neither, lets go of
//! all that it took, and doesn't unwind. What a caller owes is that both are what they say, and that there is stack. Slices of Rust are
//! what they say, and [`stack_left`] tells the stack.
#![allow(unsafe_code)]

use crate::Mode;
use std::ops::Range;

/// In which form a result is written.
#[derive(Clone, Copy, Debug, PartialEq, Eq)]
pub(crate) enum Form {
    Listing,
    Json,
}

/// Both functions take the number of a mode, the document with its length, and a buffer with its length. They answer a status.
type Lower = unsafe extern "C" fn(u32, *const u8, usize, *mut u8, usize, &mut usize) -> u32;

unsafe extern "C" {
    fn laxirbon_lower(mode: u32, document: *const u8, document_len: usize, out: *mut u8, out_len: usize, needed: &mut usize) -> u32;

    fn laxirbon_lower_json(mode: u32, document: *const u8, document_len: usize, out: *mut u8, out_len: usize, needed: &mut usize) -> u32;
}

/// Lowers a document. Answers a status, and the length of the text that goes with it. The text stands at the head of the buffer unless the
/// status says that the buffer is too short.
pub(crate) fn lower(form: Form, mode: Mode, document: &[u8], out: &mut [u8]) -> (u32, usize) {
    let function: Lower = match form {
        Form::Listing => laxirbon_lower,
        Form::Json => laxirbon_lower_json,
    };
    let mut needed = 0;
    // SAFETY: the two slices and the number are borrowed for the call, the buffer and the number exclusively. The library keeps no pointer.
    let status = unsafe { function(mode.number(), document.as_ptr(), document.len(), out.as_mut_ptr(), out.len(), &mut needed) };
    (status, needed)
}

/// How many bytes of stack this thread has left, if that can be told. It can't on a stack that isn't the thread's own, as a coroutine's.
pub(crate) fn stack_left() -> Option<usize> {
    let local = 0_u8;
    let here = (&raw const local).addr();
    STACK.with(|stack| stack.clone().filter(|stack| stack.contains(&here)).map(|stack| here - stack.start))
}

thread_local! {
    /// The addresses of this thread's stack. They are asked for once, since for a main thread a file is read.
    static STACK: Option<Range<usize>> = stack();
}

#[cfg(target_os = "linux")]
fn stack() -> Option<Range<usize>> {
    use std::ffi::{c_int, c_void};

    /// `pthread_attr_t`, with room to spare: it has 36 to 64 bytes.
    #[repr(C, align(16))]
    struct Attributes([u8; 128]);

    unsafe extern "C" {
        fn pthread_self() -> usize;
        fn pthread_getattr_np(thread: usize, attributes: *mut Attributes) -> c_int;
        fn pthread_attr_getstack(attributes: *const Attributes, lowest: *mut *mut c_void, size: *mut usize) -> c_int;
        fn pthread_attr_getguardsize(attributes: *const Attributes, size: *mut usize) -> c_int;
        fn pthread_attr_destroy(attributes: *mut Attributes) -> c_int;
    }

    let mut attributes = Attributes([0; 128]);
    let mut lowest = std::ptr::null_mut();
    let (mut size, mut guard) = (0, 0);
    // SAFETY: the attributes are asked of this very thread, are read only if they were given, and are given back. All that is written to
    // lives until then.
    let known = unsafe {
        pthread_getattr_np(pthread_self(), &mut attributes) == 0 && {
            let known =
                pthread_attr_getstack(&attributes, &mut lowest, &mut size) == 0 && pthread_attr_getguardsize(&attributes, &mut guard) == 0;
            pthread_attr_destroy(&mut attributes);
            known
        }
    };
    // Some versions of the C library count the guard pages.
    known.then(|| lowest.addr() + guard..lowest.addr() + size)
}

#[cfg(not(target_os = "linux"))]
fn stack() -> Option<Range<usize>> {
    None
}
