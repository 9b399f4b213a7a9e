//! The calls as they are exported: a field's number and slices in, answer words out.
//!
//! `answer[0]` is 0 or the refusal's number; the values, or the place, start at `answer[1]`. A
//! number that no field has is refused with 49 before all else. A call panics where the archive that
//! is linked has another interface than this crate.

use std::sync::LazyLock;

/// The interface that this crate is for: ACE_INTERFACE of include/ace.h.
pub const INTERFACE: u64 = 3;

/// The most roots of a list.
pub const MOST_ROOTS: usize = 8;

/// The answer words of a step, of lowering, of drawing and of emitting.
pub const ANSWER: usize = 4;

/// The answer words of a call that answers a list: with the count, the rounds kept and the roots.
pub const LIST: usize = 3 + MOST_ROOTS;

/// The answer words of `evaluate`: two a root.
pub const EVALUATE: usize = 1 + 2 * MOST_ROOTS;

/// The answer words of `prepare`.
pub const PREPARE: usize = 18;

unsafe extern "C" {
    safe fn ace_interface() -> u64;

    fn ace_step(
        field: u64,
        list: *mut u64,
        list_len: usize,
        n: u64,
        tag: u64,
        first: u64,
        second: u64,
        answer: *mut u64,
    );

    fn ace_build(
        field: u64,
        list: *const u64,
        list_len: usize,
        n: u64,
        roots: *const u64,
        roots_len: usize,
        result: *mut u64,
        result_len: usize,
        map: *mut u64,
        map_len: usize,
        answer: *mut u64,
    );

    fn ace_compact(
        field: u64,
        list: *const u64,
        list_len: usize,
        n: u64,
        roots: *const u64,
        roots_len: usize,
        result: *mut u64,
        result_len: usize,
        answer: *mut u64,
    );

    fn ace_normalize(
        field: u64,
        list: *const u64,
        list_len: usize,
        n: u64,
        roots: *const u64,
        roots_len: usize,
        result: *mut u64,
        result_len: usize,
        work: *mut u64,
        work_len: usize,
        answer: *mut u64,
    );

    fn ace_evaluate(
        field: u64,
        list: *const u64,
        list_len: usize,
        n: u64,
        roots: *const u64,
        roots_len: usize,
        assignment: *const u64,
        assignment_len: usize,
        m: u64,
        answer: *mut u64,
    );

    fn ace_prepare(
        field: u64,
        lengths: *const u64,
        lengths_len: usize,
        entries: *const u64,
        entries_len: usize,
        answer: *mut u64,
    );

    fn ace_lower(
        field: u64,
        list: *const u64,
        list_len: usize,
        n: u64,
        lengths: *const u64,
        lengths_len: usize,
        entries: *const u64,
        entries_len: usize,
        period: u64,
        result: *mut u64,
        result_len: usize,
        work: *mut u64,
        work_len: usize,
        places: *mut u64,
        places_len: usize,
        answer: *mut u64,
    );

    fn ace_draw(
        field: u64,
        list: *const u64,
        list_len: usize,
        n: u64,
        roots: *const u64,
        roots_len: usize,
        text: *mut u8,
        text_len: usize,
        answer: *mut u64,
    );

    fn ace_emit(
        field: u64,
        list: *const u64,
        list_len: usize,
        n: u64,
        roots: *const u64,
        roots_len: usize,
        layout: *const u64,
        layout_len: usize,
        k: u64,
        result: *mut u64,
        result_len: usize,
        answer: *mut u64,
    );
}

/// The interface of the archive that is linked.
pub fn interface() -> u64 {
    ace_interface()
}

/// Panics where the archive that is linked has another interface; asks it once.
fn same_interface() {
    static LINKED: LazyLock<u64> = LazyLock::new(interface);
    assert_eq!(*LINKED, INTERFACE, "libace.a has another interface than rust/ace");
}

/// One request on a list: place, new n.
pub fn step(
    field: u64,
    list: &mut [u64],
    n: u64,
    tag: u64,
    first: u64,
    second: u64,
    answer: &mut [u64; ANSWER],
) {
    same_interface();
    // SAFETY: each slice is lent with its length, and those written overlap no other.
    unsafe {
        ace_step(field, list.as_mut_ptr(), list.len(), n, tag, first, second, answer.as_mut_ptr());
    }
}

/// A list built from requests: count, 0, the roots' places.
pub fn build(
    field: u64,
    list: &[u64],
    n: u64,
    roots: &[u64],
    result: &mut [u64],
    map: &mut [u64],
    answer: &mut [u64; LIST],
) {
    same_interface();
    // SAFETY: each slice is lent with its length, and those written overlap no other.
    unsafe {
        ace_build(
            field,
            list.as_ptr(),
            list.len(),
            n,
            roots.as_ptr(),
            roots.len(),
            result.as_mut_ptr(),
            result.len(),
            map.as_mut_ptr(),
            map.len(),
            answer.as_mut_ptr(),
        );
    }
}

/// The records that the roots reach: count, 0, the roots' places.
pub fn compact(
    field: u64,
    list: &[u64],
    n: u64,
    roots: &[u64],
    result: &mut [u64],
    answer: &mut [u64; LIST],
) {
    same_interface();
    // SAFETY: each slice is lent with its length, and those written overlap no other.
    unsafe {
        ace_compact(
            field,
            list.as_ptr(),
            list.len(),
            n,
            roots.as_ptr(),
            roots.len(),
            result.as_mut_ptr(),
            result.len(),
            answer.as_mut_ptr(),
        );
    }
}

/// The normalised list: count, rounds kept, the roots' places.
pub fn normalize(
    field: u64,
    list: &[u64],
    n: u64,
    roots: &[u64],
    result: &mut [u64],
    work: &mut [u64],
    answer: &mut [u64; LIST],
) {
    same_interface();
    // SAFETY: each slice is lent with its length, and those written overlap no other.
    unsafe {
        ace_normalize(
            field,
            list.as_ptr(),
            list.len(),
            n,
            roots.as_ptr(),
            roots.len(),
            result.as_mut_ptr(),
            result.len(),
            work.as_mut_ptr(),
            work.len(),
            answer.as_mut_ptr(),
        );
    }
}

/// The roots' values under m entries of key number, c0, c1: c0, c1 of each.
pub fn evaluate(
    field: u64,
    list: &[u64],
    n: u64,
    roots: &[u64],
    assignment: &[u64],
    m: u64,
    answer: &mut [u64; EVALUATE],
) {
    same_interface();
    // SAFETY: each slice is lent with its length, and those written overlap no other.
    unsafe {
        ace_evaluate(
            field,
            list.as_ptr(),
            list.len(),
            n,
            roots.as_ptr(),
            roots.len(),
            assignment.as_ptr(),
            assignment.len(),
            m,
            answer.as_mut_ptr(),
        );
    }
}

/// The form of each column: columns, then a form each.
pub fn prepare(field: u64, lengths: &[u64], entries: &[u64], answer: &mut [u64; PREPARE]) {
    same_interface();
    // SAFETY: each slice is lent with its length, and those written overlap no other.
    unsafe {
        ace_prepare(
            field,
            lengths.as_ptr(),
            lengths.len(),
            entries.as_ptr(),
            entries.len(),
            answer.as_mut_ptr(),
        );
    }
}

/// The list with the columns' nodes behind it: count.
#[allow(clippy::too_many_arguments)]
pub fn lower(
    field: u64,
    list: &[u64],
    n: u64,
    lengths: &[u64],
    entries: &[u64],
    period: u64,
    result: &mut [u64],
    work: &mut [u64],
    places: &mut [u64],
    answer: &mut [u64; ANSWER],
) {
    same_interface();
    // SAFETY: each slice is lent with its length, and those written overlap no other.
    unsafe {
        ace_lower(
            field,
            list.as_ptr(),
            list.len(),
            n,
            lengths.as_ptr(),
            lengths.len(),
            entries.as_ptr(),
            entries.len(),
            period,
            result.as_mut_ptr(),
            result.len(),
            work.as_mut_ptr(),
            work.len(),
            places.as_mut_ptr(),
            places.len(),
            answer.as_mut_ptr(),
        );
    }
}

/// The list's drawing, 0 bytes behind it: its length in bytes.
pub fn draw(
    field: u64,
    list: &[u64],
    n: u64,
    roots: &[u64],
    text: &mut [u8],
    answer: &mut [u64; ANSWER],
) {
    same_interface();
    // SAFETY: each slice is lent with its length, and those written overlap no other.
    unsafe {
        ace_draw(
            field,
            list.as_ptr(),
            list.len(),
            n,
            roots.as_ptr(),
            roots.len(),
            text.as_mut_ptr(),
            text.len(),
            answer.as_mut_ptr(),
        );
    }
}

/// The list as constants and operations over a layout of k key numbers: num_vars, num_ops.
#[allow(clippy::too_many_arguments)]
pub fn emit(
    field: u64,
    list: &[u64],
    n: u64,
    roots: &[u64],
    layout: &[u64],
    k: u64,
    result: &mut [u64],
    answer: &mut [u64; ANSWER],
) {
    same_interface();
    // SAFETY: each slice is lent with its length, and those written overlap no other.
    unsafe {
        ace_emit(
            field,
            list.as_ptr(),
            list.len(),
            n,
            roots.as_ptr(),
            roots.len(),
            layout.as_ptr(),
            layout.len(),
            k,
            result.as_mut_ptr(),
            result.len(),
            answer.as_mut_ptr(),
        );
    }
}
