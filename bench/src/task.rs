//! How a Rust program calls an export of `crates/digit_bench`.

/// What a drain came to, in the library's order.
#[repr(C)]
#[derive(Clone, Copy, Debug, Default)]
pub struct Outcome {
    /// The sum of the bytes, or the number that they make.
    pub value: u64,
    /// What `current_count` answers after the drain.
    pub count: u64,
    /// How many looks at a byte were counted, by the library's exports that ask.
    pub looks: u64,
}

/// What an export is asked to do, in the library's order: two slices, and a word as its halves.
#[repr(C)]
pub struct Task {
    text: *const u8,
    len: usize,
    lengths: *const u8,
    count: usize,
    low: u64,
    high: u64,
    is_constant: u32,
}

pub type Export = unsafe extern "C" fn(&Task, &mut Outcome);

/// A word, and whether the library is to run its code for that word as a constant.
#[derive(Clone, Copy)]
pub struct Format {
    pub word: u128,
    pub is_constant: bool,
}

/// Calls an export on a text, or on many that follow one another, with their lengths.
pub fn call(export: Export, text: &[u8], lengths: &[u8], format: Format) -> Outcome {
    let task = Task {
        text: text.as_ptr(),
        len: text.len(),
        lengths: lengths.as_ptr(),
        count: lengths.len(),
        low: format.word as u64,
        high: (format.word >> 64) as u64,
        is_constant: format.is_constant.into(),
    };
    let mut outcome = Outcome::default();
    // SAFETY: the pointers are those of slices, and the export keeps none.
    unsafe { export(&task, &mut outcome) };
    outcome
}
