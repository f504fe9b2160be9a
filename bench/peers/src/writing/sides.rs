//! The sides. Each writes all numbers one after another, with a comma after each, and answers how
//! many bytes that takes.

pub mod cxx;
#[cfg(feature = "has-dtoa")]
pub mod dtoa;
#[cfg(feature = "has-itoa")]
pub mod itoa;
#[cfg(feature = "has-lexical-core")]
pub mod lexical;
pub mod library;
pub mod rust;
#[cfg(feature = "has-ryu")]
pub mod ryu;

use crate::values::Numbers;

/// Writes what a closure writes at the front of a slice, and answers its length.
#[inline(always)]
pub fn each<T: Copy>(
    numbers: &Numbers,
    values: &[T],
    write: impl Fn(T, &mut [u8]) -> usize,
) -> u64 {
    let mut room = numbers.out.borrow_mut();
    let out: &mut [u8] = &mut room;
    let mut at = 0;
    for &value in values {
        let end = at + write(value, &mut out[at..]);
        out[end] = b',';
        at = end + 1;
    }
    at as u64
}

/// Declares sides that are exports of a library, and the field of `Numbers` that each writes.
macro_rules! exports {
    ($($name:ident $field:ident $type:ty;)*) => {
        $(pub fn $name(numbers: &crate::values::Numbers) -> u64 {
            unsafe extern "C" {
                fn $name(values: *const $type, count: usize, out: *mut u8, room: usize) -> usize;
            }
            let values = &numbers.$field;
            let mut out = numbers.out.borrow_mut();
            // SAFETY: the values are only read, and of `out` no byte after its end is written
            unsafe { $name(values.as_ptr(), values.len(), out.as_mut_ptr(), out.len()) as u64 }
        })*
    };
}
pub(crate) use exports;
