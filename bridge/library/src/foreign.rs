//! The functions of the proved static library. All `unsafe` code of the crates for Rust is here.
//!
//! A function gets texts and a buffer for its result, each as a pointer and a length, and keeps none of them. It
//! returns a status. It sets `needed` to the number of bytes that it wrote, or that it needs if the buffer is too
//! small. The calls on blocks return memory that the caller owns, and that `pest_meta_free` frees.
use alloc::boxed::Box;
use alloc::vec::Vec;
use core::ffi::c_void;
use core::ops::Deref;
use core::{fmt, ptr, slice};

use crate::{Call, Node};

/// A list of C: its address and its length.
#[repr(C)]
struct Lent<T> {
    at: *const T,
    count: usize,
}

/// A list in memory that the library returned, or that was a box. It is freed when this value is dropped.
pub struct Given<T> {
    lent: Lent<T>,
    /// Whether the memory is that of a box, which has no other owner.
    is_of_box: bool,
}

// SAFETY: nobody else knows of the memory, and it is freed once.
unsafe impl<T: Send> Send for Given<T> {}
// SAFETY: as above; the list is only read.
unsafe impl<T: Sync> Sync for Given<T> {}

impl<T> Given<T> {
    /// An empty list.
    pub fn new() -> Given<T> {
        Given { lent: Lent { at: ptr::NonNull::dangling().as_ptr(), count: 0 }, is_of_box: false }
    }
}

impl<T> From<Vec<T>> for Given<T> {
    fn from(list: Vec<T>) -> Self {
        let list = list.into_boxed_slice();
        let count = list.len();
        Given { lent: Lent { at: Box::into_raw(list).cast(), count }, is_of_box: true }
    }
}

impl<T> Default for Given<T> {
    fn default() -> Self {
        Given::new()
    }
}

impl<T> Deref for Given<T> {
    type Target = [T];

    fn deref(&self) -> &[T] {
        // SAFETY: so many values lie there; where there are none, the pointer is aligned and not null.
        unsafe { slice::from_raw_parts(self.lent.at, self.lent.count) }
    }
}

impl<T: fmt::Debug> fmt::Debug for Given<T> {
    fn fmt(&self, f: &mut fmt::Formatter<'_>) -> fmt::Result {
        (**self).fmt(f)
    }
}

impl<T> Drop for Given<T> {
    fn drop(&mut self) {
        let Lent { at, count } = self.lent;
        if self.is_of_box {
            // SAFETY: `from` took the pointer and the length from a box, and this is its one owner.
            drop(unsafe { Box::from_raw(ptr::slice_from_raw_parts_mut(at.cast_mut(), count)) });
        } else if count > 0 {
            // SAFETY: a list of the library that is not empty is memory of its own, and this is its one owner.
            unsafe { pest_meta_free(at as *mut c_void) }
        }
    }
}

extern "C" {
    fn pest_meta_free(at: *mut c_void);
    fn pest_meta_tokens(
        text: *const u8,
        text_len: usize,
        rule: *const u8,
        rule_len: usize,
        out: *mut u8,
        out_len: usize,
        needed: *mut usize,
    ) -> u8;
    fn pest_meta_token_numbers(
        text: *const u8,
        text_len: usize,
        rule: *const u8,
        rule_len: usize,
        out: *mut usize,
        out_len: usize,
        needed: *mut usize,
    ) -> u8;
    fn pest_meta_grammar(text: *const u8, len: usize, out: *mut u8, room: usize, needed: *mut usize) -> u8;
    fn pest_meta_names(text: *const u8, len: usize, out: *mut u8, room: usize, needed: *mut usize) -> u8;
    fn pest_meta_rust_keyword(
        name: *const u8,
        len: usize,
        out: *mut u8,
        room: usize,
        needed: *mut usize,
    ) -> u8;
    fn pest_meta_rules(text: *const u8, len: usize, out: *mut u8, room: usize, needed: *mut usize) -> u8;
    fn pest_meta_nodes(text: *const u8, len: usize, out: *mut u8, room: usize, needed: *mut usize) -> u8;
    fn pest_meta_optimize(text: *const u8, len: usize, out: *mut u8, room: usize, needed: *mut usize) -> u8;
    fn pest_meta_parse_and_optimize(
        text: *const u8,
        len: usize,
        out: *mut u8,
        room: usize,
        needed: *mut usize,
    ) -> u8;
    fn pest_meta_diagnostics(
        text: *const u8,
        len: usize,
        out: *mut u8,
        room: usize,
        needed: *mut usize,
    ) -> u8;
    fn pest_meta_compile_prepared(rules: *const u8, rules_len: usize, block: *mut Lent<u8>) -> u8;
    fn pest_meta_run(
        block: *const u8,
        block_len: usize,
        rule: u32,
        text: *const u8,
        text_len: usize,
        from: usize,
        steps: u64,
        nodes: *mut Lent<Node>,
        end: *mut usize,
    ) -> u8;
    fn pest_meta_expected(
        block: *const u8,
        block_len: usize,
        rule: u32,
        text: *const u8,
        text_len: usize,
        from: usize,
        place: usize,
        steps: u64,
        rows: *mut Lent<u32>,
    ) -> u8;
    fn pest_meta_attempts(
        block: *const u8,
        block_len: usize,
        rule: u32,
        text: *const u8,
        text_len: usize,
        from: usize,
        steps: u64,
        place: *mut usize,
        positives: *mut Lent<u32>,
        negatives: *mut Lent<u32>,
    ) -> u8;
    fn pest_meta_version(out: *mut u8, out_len: usize, needed: *mut usize) -> u8;
}

/// The builtins of a grammar, its rules and its optimized rules in binary form, or its errors.
pub fn grammar(text: &str, out: &mut [u8], needed: &mut usize) -> u8 {
    // SAFETY: as below.
    unsafe { pest_meta_grammar(text.as_ptr(), text.len(), out.as_mut_ptr(), out.len(), needed) }
}

/// Calls a function over one text.
pub fn over_text(call: Call, text: &str, out: &mut [u8], needed: &mut usize) -> u8 {
    let function = match call {
        Call::Names => pest_meta_names,
        Call::RustKeyword => pest_meta_rust_keyword,
        Call::Rules => pest_meta_rules,
        Call::Nodes => pest_meta_nodes,
        Call::Optimize => pest_meta_optimize,
        Call::ParseAndOptimize => pest_meta_parse_and_optimize,
        Call::Diagnostics => pest_meta_diagnostics,
    };
    // SAFETY: each pointer stands before its length, and all are of live values of that many bytes, of which
    // those that are written are borrowed as such.
    unsafe { function(text.as_ptr(), text.len(), out.as_mut_ptr(), out.len(), needed) }
}

/// The entries of the trees that a text has by a rule of that name, or one error.
pub fn tokens(text: &str, rule: &str, out: &mut [u8], needed: &mut usize) -> u8 {
    // SAFETY: as above.
    unsafe {
        pest_meta_tokens(
            text.as_ptr(),
            text.len(),
            rule.as_ptr(),
            rule.len(),
            out.as_mut_ptr(),
            out.len(),
            needed,
        )
    }
}

/// Writes the same entries as numbers. If there is an error, nothing is written.
pub fn token_numbers(text: &str, rule: &str, out: &mut [usize], needed: &mut usize) -> u8 {
    // SAFETY: as above.
    unsafe {
        pest_meta_token_numbers(
            text.as_ptr(),
            text.len(),
            rule.as_ptr(),
            rule.len(),
            out.as_mut_ptr(),
            out.len(),
            needed,
        )
    }
}

/// The block of optimized rules in binary form.
pub fn compile_prepared(rules: &[u8], block: &mut Given<u8>) -> u8 {
    *block = Given::new();
    // SAFETY: as above; the empty list is a valid one, which the call replaces by one that it hands out.
    unsafe { pest_meta_compile_prepared(rules.as_ptr(), rules.len(), &mut block.lent) }
}

/// Runs the rule with the index `rule` from the start of `text`. Returns the nodes and the end of a match, or the
/// furthest position of a failure.
pub fn run(block: &[u8], rule: u32, text: &str, steps: u64, nodes: &mut Given<Node>, end: &mut usize) -> u8 {
    *nodes = Given::new();
    // SAFETY: as above.
    unsafe {
        pest_meta_run(
            block.as_ptr(),
            block.len(),
            rule,
            text.as_ptr(),
            text.len(),
            0,
            steps,
            &mut nodes.lent,
            end,
        )
    }
}

/// Finds the indexes of the rules that are expected at the byte `place` in a run as by [`run`].
pub fn expected(block: &[u8], rule: u32, text: &str, place: usize, steps: u64, rows: &mut Given<u32>) -> u8 {
    *rows = Given::new();
    // SAFETY: as above.
    unsafe {
        pest_meta_expected(
            block.as_ptr(),
            block.len(),
            rule,
            text.as_ptr(),
            text.len(),
            0,
            place,
            steps,
            &mut rows.lent,
        )
    }
}

/// Finds the indexes of the rules that an error of pest names in a run as by [`run`], expected and not, and the
/// position of that error. `place` is the first position to try.
pub fn attempts(
    block: &[u8],
    rule: u32,
    text: &str,
    steps: u64,
    place: &mut usize,
    positives: &mut Given<u32>,
    negatives: &mut Given<u32>,
) -> u8 {
    *positives = Given::new();
    *negatives = Given::new();
    // SAFETY: as above.
    unsafe {
        pest_meta_attempts(
            block.as_ptr(),
            block.len(),
            rule,
            text.as_ptr(),
            text.len(),
            0,
            steps,
            place,
            &mut positives.lent,
            &mut negatives.lent,
        )
    }
}

/// The version of the library, and the number of its format.
pub fn version(out: &mut [u8], needed: &mut usize) -> u8 {
    // SAFETY: as above.
    unsafe { pest_meta_version(out.as_mut_ptr(), out.len(), needed) }
}
