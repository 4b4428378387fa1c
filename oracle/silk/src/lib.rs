//! The functions of libmodestsilk.a, as include/modestsilk.h declares them,
//! and the random numbers that its comparison and its measure take.

mod c {
    unsafe extern "C" {
        pub safe fn silk_kind_arm(form: u32, word: u32) -> u32;
        pub safe fn silk_kind_thumb(form: u32, word: u16) -> u32;
        pub safe fn silk_kind_thumb_top(form: u32, top: u8) -> u32;
        pub fn silk_print_arm(
            form: u32,
            word: u32,
            address: u32,
            line: *mut u8,
            capacity: usize,
            length: *mut usize,
        ) -> u32;
        pub fn silk_print_thumb(
            form: u32,
            word: u16,
            address: u32,
            line: *mut u8,
            capacity: usize,
            length: *mut usize,
        ) -> u32;
        pub fn silk_read_arm(
            form: u32,
            address: u32,
            line: *const u8,
            length: usize,
            word: *mut u32,
        ) -> u32;
        pub fn silk_read_thumb(
            form: u32,
            address: u32,
            line: *const u8,
            length: usize,
            word: *mut u16,
        ) -> u32;
        pub fn silk_print_pair(
            first: u16,
            second: u16,
            address: u32,
            line: *mut u8,
            capacity: usize,
            length: *mut usize,
        ) -> u32;
        pub fn silk_read_pair(
            address: u32,
            line: *const u8,
            length: usize,
            first: *mut u16,
            second: *mut u16,
        ) -> u32;
        pub fn silk_unpaired(halfwords: *const u16, count: usize, index: *mut usize) -> u32;
        pub fn silk_address_arm(word: u32, address: u32, shown: *mut u32) -> u32;
        pub fn silk_address_thumb(word: u16, address: u32, shown: *mut u32) -> u32;
        pub fn silk_address_pair(first: u16, second: u16, address: u32, shown: *mut u32) -> u32;
        pub fn silk_list_step(
            image: *const u8,
            image_length: usize,
            stretches: *const u8,
            stretches_length: usize,
            base: u32,
            place: u32,
            line: *mut u8,
            capacity: usize,
            offset: *mut u32,
            bytes: *mut u32,
            length: *mut usize,
        ) -> u32;
        pub fn silk_patch(
            image: *mut u8,
            image_length: usize,
            stretches: *const u8,
            stretches_length: usize,
            base: u32,
            offset: u32,
            line: *const u8,
            length: usize,
        ) -> u32;
        pub fn silk_steps_at(
            image: *const u8,
            image_length: usize,
            stretches: *const u8,
            stretches_length: usize,
            base: u32,
            addresses: *const u32,
            count: usize,
            offsets: *mut u32,
            capacity: usize,
        ) -> u32;
        pub fn silk_worst_run(
            image: *const u8,
            image_length: usize,
            stretches: *const u8,
            stretches_length: usize,
            count: *mut u32,
            offset: *mut u32,
        ) -> u32;
    }
}

pub use c::{
    silk_kind_arm as kind_arm, silk_kind_thumb as kind_thumb, silk_kind_thumb_top as kind_thumb_top,
};

pub const BENCH: u32 = 0;
pub const SHEET: u32 = 1;

/// Addresses that `steps_at` takes at most, and the offsets that it writes.
pub const ADDRESSES: usize = 64;

/// Lends the buffer; gives the number and the length, which is `usize::MAX`
/// if the function leaves it alone.
pub fn print_arm(form: u32, word: u32, address: u32, line: &mut [u8]) -> (u32, usize) {
    let mut length = usize::MAX;
    let (start, capacity) = (line.as_mut_ptr(), line.len());
    // SAFETY: the buffer and the length are lent for the call alone.
    let number = unsafe { c::silk_print_arm(form, word, address, start, capacity, &mut length) };
    (number, length)
}

/// The same for a Thumb word.
pub fn print_thumb(form: u32, word: u16, address: u32, line: &mut [u8]) -> (u32, usize) {
    let mut length = usize::MAX;
    let (start, capacity) = (line.as_mut_ptr(), line.len());
    // SAFETY: the buffer and the length are lent for the call alone.
    let number = unsafe { c::silk_print_thumb(form, word, address, start, capacity, &mut length) };
    (number, length)
}

/// Lends the line; gives the number and the word.
pub fn read_arm(form: u32, address: u32, line: &[u8]) -> (u32, u32) {
    let mut word = u32::MAX;
    // SAFETY: the line and the word are lent for the call alone.
    let number = unsafe { c::silk_read_arm(form, address, line.as_ptr(), line.len(), &mut word) };
    (number, word)
}

/// The same for a Thumb line.
pub fn read_thumb(form: u32, address: u32, line: &[u8]) -> (u32, u16) {
    let mut word = u16::MAX;
    // SAFETY: the line and the word are lent for the call alone.
    let number = unsafe { c::silk_read_thumb(form, address, line.as_ptr(), line.len(), &mut word) };
    (number, word)
}

/// The two halves of a call.
pub type Pair = (u16, u16);

/// Lends the buffer; gives the number and the length.
pub fn print_pair(pair: Pair, address: u32, line: &mut [u8]) -> (u32, usize) {
    let mut length = usize::MAX;
    let (start, capacity) = (line.as_mut_ptr(), line.len());
    // SAFETY: the buffer and the length are lent for the call alone.
    let number =
        unsafe { c::silk_print_pair(pair.0, pair.1, address, start, capacity, &mut length) };
    (number, length)
}

/// Lends the line; gives the number and the halves.
pub fn read_pair(address: u32, line: &[u8]) -> (u32, Pair) {
    let mut pair = (u16::MAX, u16::MAX);
    let (start, length) = (line.as_ptr(), line.len());
    // SAFETY: the line and the halves are lent for the call alone.
    let number = unsafe { c::silk_read_pair(address, start, length, &mut pair.0, &mut pair.1) };
    (number, pair)
}

/// Lends the run; gives the number and the index.
pub fn unpaired(run: &[u16]) -> (u32, usize) {
    let mut index = usize::MAX;
    // SAFETY: the run and the index are lent for the call alone.
    let number = unsafe { c::silk_unpaired(run.as_ptr(), run.len(), &mut index) };
    (number, index)
}

/// The address behind a 1. With a 0 it must be 0, and there is no other number.
#[inline]
fn some_address(number: u32, shown: u32) -> Option<u32> {
    if number == 1 {
        return Some(shown);
    }
    assert_eq!((number, shown), (0, 0));
    None
}

/// Gives the address that the sheet line of an ARM word shows. Inlined, as it
/// would take as long as what it calls.
#[inline]
pub fn address_arm(word: u32, address: u32) -> Option<u32> {
    let mut shown = u32::MAX;
    // SAFETY: the address is lent for the call alone.
    let number = unsafe { c::silk_address_arm(word, address, &mut shown) };
    some_address(number, shown)
}

/// The same for a Thumb word.
#[inline]
pub fn address_thumb(word: u16, address: u32) -> Option<u32> {
    let mut shown = u32::MAX;
    // SAFETY: the address is lent for the call alone.
    let number = unsafe { c::silk_address_thumb(word, address, &mut shown) };
    some_address(number, shown)
}

/// The same for a call pair.
#[inline]
pub fn address_pair(pair: Pair, address: u32) -> Option<u32> {
    let mut shown = u32::MAX;
    // SAFETY: the address is lent for the call alone.
    let number = unsafe { c::silk_address_pair(pair.0, pair.1, address, &mut shown) };
    some_address(number, shown)
}

/// What a step of a listing answers.
#[derive(Clone, Copy)]
pub struct Step {
    pub number: u32,
    pub offset: u32,
    pub bytes: u32,
    pub length: usize,
}

/// Lends the image, its stretches and the buffer; gives the step at a place.
/// Inlined, as a measure should not time its many arguments twice.
#[inline]
pub fn list_step(image: &[u8], stretches: &[u8], base: u32, place: u32, line: &mut [u8]) -> Step {
    let (mut offset, mut bytes, mut length) = (u32::MAX, u32::MAX, usize::MAX);
    // SAFETY: all are lent for the call alone.
    let number = unsafe {
        c::silk_list_step(
            image.as_ptr(),
            image.len(),
            stretches.as_ptr(),
            stretches.len(),
            base,
            place,
            line.as_mut_ptr(),
            line.len(),
            &mut offset,
            &mut bytes,
            &mut length,
        )
    };
    Step {
        number,
        offset,
        bytes,
        length,
    }
}

/// Patches the word at an offset by its sheet line; gives the number.
pub fn patch(image: &mut [u8], stretches: &[u8], base: u32, offset: u32, line: &[u8]) -> u32 {
    // SAFETY: all are lent for the call alone.
    unsafe {
        c::silk_patch(
            image.as_mut_ptr(),
            image.len(),
            stretches.as_ptr(),
            stretches.len(),
            base,
            offset,
            line.as_ptr(),
            line.len(),
        )
    }
}

/// Lends the image, its stretches, the addresses and the offsets; gives the number.
pub fn steps_at(
    image: &[u8],
    stretches: &[u8],
    base: u32,
    addresses: &[u32],
    offsets: &mut [u32; ADDRESSES],
) -> u32 {
    // SAFETY: all are lent for the call alone.
    unsafe {
        c::silk_steps_at(
            image.as_ptr(),
            image.len(),
            stretches.as_ptr(),
            stretches.len(),
            base,
            addresses.as_ptr(),
            addresses.len(),
            offsets.as_mut_ptr(),
            offsets.len(),
        )
    }
}

/// Lends the image and its stretches; gives the number, and the count and the
/// offset of the worst run.
pub fn worst_run(image: &[u8], stretches: &[u8]) -> (u32, u32, u32) {
    let (mut count, mut offset) = (u32::MAX, u32::MAX);
    // SAFETY: all are lent for the call alone.
    let number = unsafe {
        c::silk_worst_run(
            image.as_ptr(),
            image.len(),
            stretches.as_ptr(),
            stretches.len(),
            &mut count,
            &mut offset,
        )
    };
    (number, count, offset)
}

/// splitmix64: the random number at a place of its sequence.
pub fn random(place: u64) -> u64 {
    let mut z = place.wrapping_add(1).wrapping_mul(0x9e37_79b9_7f4a_7c15);
    z = (z ^ z >> 30).wrapping_mul(0xbf58_476d_1ce4_e5b9);
    z = (z ^ z >> 27).wrapping_mul(0x94d0_49bb_1331_11eb);
    z ^ z >> 31
}
