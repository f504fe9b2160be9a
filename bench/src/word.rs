//! A format word, decoded when the program is compiled.
//!
//! | Bits | Field |
//! |---|---|
//! | 32, 35, 38, 41 | internal, leading, trailing, consecutive, of the integer |
//! | 33, 36, 39, 42 | the same of the fraction |
//! | 34, 37, 40, 43 | the same of the exponent |
//! | 64 to 71 | separator; zero means none |
//! | 104 to 111 | radix |

/// Radix 10 and no separator.
pub const NONE: u128 = 10 << 104;
/// Radix 10 and the separator `_`, with no flags.
const UNGRANTED: u128 = NONE | (b'_' as u128) << 64;
const INTERNAL: u128 = 1 << 32;
const LEADING: u128 = 1 << 35;
const TRAILING: u128 = 1 << 38;
const CONSECUTIVE: u128 = 1 << 41;
const FLAGS: u128 = INTERNAL | LEADING | TRAILING | CONSECUTIVE;

/// Separators between digits are dropped.
pub const I: u128 = UNGRANTED | INTERNAL;
/// The same in the integer, the fraction and the exponent.
pub const I_IN_ALL: u128 = in_all(I);
/// As [`I`], and a run of separators is judged as one.
pub const IC: u128 = I | CONSECUTIVE;
/// Separators with no digit before them are dropped, and a run is judged as one.
pub const LC: u128 = UNGRANTED | LEADING | CONSECUTIVE;
/// Every separator is dropped.
pub const ILTC: u128 = IC | LEADING | TRAILING;
/// As [`NONE`] and [`I`], in other radices.
pub const NONE_16: u128 = with_radix(NONE, 16);
pub const I_16: u128 = with_radix(I, 16);
pub const NONE_2: u128 = with_radix(NONE, 2);
pub const I_2: u128 = with_radix(I, 2);
pub const NONE_36: u128 = with_radix(NONE, 36);
/// Rust's decimal literals: separators after the first digit.
pub const RUST: u128 = IC | TRAILING;
/// The digits after `0b`, `0o` and `0x`: separators anywhere.
pub const RUST_2: u128 = with_radix(ILTC, 2);
pub const RUST_8: u128 = with_radix(ILTC, 8);
pub const RUST_16: u128 = with_radix(ILTC, 16);

/// A word in another radix.
const fn with_radix(word: u128, radix: u128) -> u128 {
    (word & !(0xff << 104)) | radix << 104
}

/// Whether the library has code of its own for the word as a constant.
pub fn is_constant(word: u128) -> bool {
    [NONE, I, IC, ILTC, I_IN_ALL, NONE_16, I_16, NONE_2, I_2, NONE_36].contains(&word)
}

/// The word with the separator `_` and the flags that the four lowest bits say, internal, leading,
/// trailing and consecutive.
pub const fn with_flags(state: u128) -> u128 {
    UNGRANTED
        | ((state & 1) * INTERNAL)
        | (((state >> 1) & 1) * LEADING)
        | (((state >> 2) & 1) * TRAILING)
        | (((state >> 3) & 1) * CONSECUTIVE)
}

/// The word with the integer's flags in the fraction and the exponent too.
pub const fn in_all(word: u128) -> u128 {
    let flags = word & FLAGS;
    word | flags << FRACTION | flags << EXPONENT
}

/// The integer, as a component of a number.
pub const INTEGER: u32 = 0;
/// The fraction.
pub const FRACTION: u32 = 1;
/// The exponent.
pub const EXPONENT: u32 = 2;

/// Whether the code of lexical-util answers as the role rule does, in each component. In five of
/// the sixteen flag states it doesn't.
#[cfg_attr(not(feature = "original"), allow(dead_code))]
pub const fn original_agrees(word: u128) -> bool {
    state_agrees(word) && state_agrees(word >> FRACTION) && state_agrees(word >> EXPONENT)
}

const fn state_agrees(word: u128) -> bool {
    let is_consecutive = word & CONSECUTIVE != 0;
    let is_one_sided = (word & LEADING != 0) != (word & TRAILING != 0);
    match word & FLAGS & !CONSECUTIVE {
        0 => !is_consecutive,
        granted => granted & INTERNAL == 0 || !is_one_sided,
    }
}

/// What stands at a position; nothing stands outside of the buffer, which is `Other`.
#[derive(Clone, Copy, PartialEq, Eq)]
pub enum Class {
    Digit,
    Separator,
    Other,
}

/// The rule of a component under a word.
pub struct Rule<const WORD: u128, const COMPONENT: u32 = INTEGER>;

impl<const WORD: u128, const COMPONENT: u32> Rule<WORD, COMPONENT> {
    pub const SEPARATOR: u8 = (WORD >> 64) as u8;
    pub const RADIX: u32 = (WORD >> 104) as u8 as u32;
    const GRANTED: u128 = WORD >> COMPONENT;
    pub const INTERNAL: bool = Self::GRANTED & INTERNAL != 0;
    pub const LEADING: bool = Self::GRANTED & LEADING != 0;
    pub const TRAILING: bool = Self::GRANTED & TRAILING != 0;
    pub const CONSECUTIVE: bool = Self::GRANTED & CONSECUTIVE != 0;
    /// No flag is set: nothing is dropped, and nothing is counted.
    pub const CONTIGUOUS: bool = Self::GRANTED & FLAGS == 0;
    /// Every separator has a role that is granted, whatever stands beside it.
    pub const DROPS_ALL: bool = Self::GRANTED & FLAGS == FLAGS;

    #[inline(always)]
    pub fn is_digit(byte: u8) -> bool {
        (byte as char).is_digit(Self::RADIX)
    }

    #[inline(always)]
    pub fn is_separator(byte: u8) -> bool {
        Self::SEPARATOR != 0 && byte == Self::SEPARATOR
    }

    #[inline(always)]
    pub fn class(byte: Option<&u8>) -> Class {
        match byte {
            Some(&byte) if Self::is_digit(byte) => Class::Digit,
            Some(&byte) if Self::is_separator(byte) => Class::Separator,
            _ => Class::Other,
        }
    }

    /// Whether a separator with these sides has a role that is granted.
    #[inline(always)]
    pub fn drops(left: Class, right: Class) -> bool {
        match (left, right) {
            (Class::Digit, Class::Digit) => Self::INTERNAL,
            (Class::Other, Class::Digit) => Self::LEADING,
            (Class::Digit, Class::Other) => Self::TRAILING,
            (Class::Other, Class::Other) => Self::LEADING || Self::TRAILING,
            _ => false,
        }
    }
}
