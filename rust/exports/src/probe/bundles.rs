//! The exports of bundles. An answer that carries a place or a number of entries is a refusal's
//! number, or 0, plus 256 times what it carries.

extern "C" {
    fn probe_survey(bundle: *const u8, bundle_length: usize) -> u64;
    fn probe_entry_at(
        bundle: *const u8,
        bundle_length: usize,
        place: u64,
        entry: *mut u8,
        entry_length: usize,
    ) -> u8;
    fn probe_calls_of(header: u64, body: u64) -> u64;
    fn probe_open_entry(
        image: *mut u8,
        image_length: usize,
        bundle: *const u8,
        bundle_length: usize,
        place: u64,
        body: *mut u8,
        body_length: usize,
    ) -> u64;
    fn probe_start(
        image: *mut u8,
        image_length: usize,
        label: *const u8,
        label_length: usize,
        bundle: *mut u8,
        bundle_length: usize,
    ) -> u64;
    fn probe_add(
        image: *mut u8,
        image_length: usize,
        header: *const u8,
        header_length: usize,
        body: *const u8,
        body_length: usize,
        bundle: *mut u8,
        bundle_length: usize,
    ) -> u64;
}

/// Surveys a bundle; accepted, the answer carries the number of entries.
#[inline]
pub fn survey(bundle: &[u8]) -> u64 {
    // SAFETY: pointer and length are those of one slice, lent for the call.
    unsafe { probe_survey(bundle.as_ptr(), bundle.len()) }
}

/// Writes the three numbers of the entry at a place: the lengths of header and body and the next
/// place, eight bytes each. Answers 0, or 1, 2 or 3 for why there is none, or 6 for another length
/// than 24.
#[inline]
pub fn entry_at(bundle: &[u8], place: u64, entry: &mut [u8]) -> u8 {
    // SAFETY: each pointer and length are those of one slice, lent for the call.
    unsafe {
        probe_entry_at(
            bundle.as_ptr(),
            bundle.len(),
            place,
            entry.as_mut_ptr(),
            entry.len(),
        )
    }
}

/// The permutation calls of an entry with those lengths, without the key's.
#[inline]
pub fn calls_of(header: u64, body: u64) -> u64 {
    // SAFETY: only numbers are passed.
    unsafe { probe_calls_of(header, body) }
}

/// Opens the entry at a place; accepted, the answer carries the next place.
#[inline]
pub fn open_entry(image: &mut [u8], bundle: &[u8], place: u64, body: &mut [u8]) -> u64 {
    // SAFETY: each pointer and length are those of one slice, lent for the call.
    unsafe {
        probe_open_entry(
            image.as_mut_ptr(),
            image.len(),
            bundle.as_ptr(),
            bundle.len(),
            place,
            body.as_mut_ptr(),
            body.len(),
        )
    }
}

/// Starts a bundle with its entry zero.
#[inline]
pub fn start(image: &mut [u8], label: &[u8], bundle: &mut [u8]) -> u64 {
    // SAFETY: each pointer and length are those of one slice, lent for the call.
    unsafe {
        probe_start(
            image.as_mut_ptr(),
            image.len(),
            label.as_ptr(),
            label.len(),
            bundle.as_mut_ptr(),
            bundle.len(),
        )
    }
}

/// Adds an entry at the stated end of a bundle.
#[inline]
pub fn add(image: &mut [u8], header: &[u8], body: &[u8], bundle: &mut [u8]) -> u64 {
    // SAFETY: each pointer and length are those of one slice, lent for the call.
    unsafe {
        probe_add(
            image.as_mut_ptr(),
            image.len(),
            header.as_ptr(),
            header.len(),
            body.as_ptr(),
            body.len(),
            bundle.as_mut_ptr(),
            bundle.len(),
        )
    }
}
