//! The same calls in Rust with the word decoded at run time: no looks are counted, and nothing is
//! remembered. It says what a library can reach that learns its word at run time. A run that is
//! kept costs the square of its length.

use crate::calls::{Buffer, Buffers, Digits};
use crate::word::Class;

/// The buffers of any word.
pub struct Floor;

impl Buffers for Floor {
    type Bytes<'a> = Bytes<'a>;

    fn radix(word: u128) -> u32 {
        u32::from((word >> 104) as u8)
    }
}

/// A buffer with a cursor and the counts of the three components.
pub struct Bytes<'a> {
    text: &'a [u8],
    word: u128,
    index: usize,
    counts: [usize; 3],
}

impl<'a> Buffer<'a> for Bytes<'a> {
    #[inline(always)]
    fn over(text: &'a [u8], word: u128) -> Self {
        Bytes { text, word, index: 0, counts: [0; 3] }
    }

    #[inline(always)]
    fn integer(&mut self) -> impl Digits<'a> {
        ComponentDigits::<0>::of(self)
    }

    #[inline(always)]
    fn fraction(&mut self) -> impl Digits<'a> {
        ComponentDigits::<1>::of(self)
    }

    #[inline(always)]
    fn exponent(&mut self) -> impl Digits<'a> {
        ComponentDigits::<2>::of(self)
    }

    #[inline(always)]
    fn current_count(&self) -> usize {
        match (self.word >> 64) as u8 {
            0 => self.index,
            _ => self.counts.iter().sum(),
        }
    }
}

/// What a word grants a component.
#[derive(Clone, Copy)]
struct Rule {
    /// How many figures are digits, and how many letters.
    figures: u8,
    letters: u8,
    /// Above 255 where there is none.
    separator: u16,
    internal: bool,
    leading: bool,
    trailing: bool,
    consecutive: bool,
}

impl Rule {
    /// The rule of the component with that number. The exponent has the radix of the others.
    #[inline(always)]
    fn of(word: u128, component: u32) -> Rule {
        let has = |bit: u32| (word >> (bit + component)) & 1 == 1;
        let separator = (word >> 64) as u8;
        let radix = (word >> 104) as u8;
        Rule {
            figures: radix.min(10),
            letters: radix.saturating_sub(10),
            separator: if separator == 0 { 256 } else { separator.into() },
            internal: has(32),
            leading: has(35),
            trailing: has(38),
            consecutive: has(41),
        }
    }

    #[inline(always)]
    fn is_contiguous(self) -> bool {
        !(self.internal || self.leading || self.trailing || self.consecutive)
    }

    #[inline(always)]
    fn is_digit(self, byte: u8) -> bool {
        byte.wrapping_sub(b'0') < self.figures || (byte | 0x20).wrapping_sub(b'a') < self.letters
    }

    #[inline(always)]
    fn is_separator(self, byte: u8) -> bool {
        u16::from(byte) == self.separator
    }

    #[inline(always)]
    fn class(self, byte: Option<&u8>) -> Class {
        match byte {
            Some(&byte) if self.is_digit(byte) => Class::Digit,
            Some(&byte) if self.is_separator(byte) => Class::Separator,
            _ => Class::Other,
        }
    }

    /// Whether a separator with these sides has a role that is granted.
    #[inline(always)]
    fn drops(self, left: Class, right: Class) -> bool {
        match (left, right) {
            (Class::Digit, Class::Digit) => self.internal,
            (Class::Other, Class::Digit) => self.leading,
            (Class::Digit, Class::Other) => self.trailing,
            (Class::Other, Class::Other) => self.leading || self.trailing,
            _ => false,
        }
    }
}

/// The digits of a component in a [`Bytes`].
struct ComponentDigits<'a, 'b, const COMPONENT: u32> {
    bytes: &'b mut Bytes<'a>,
    rule: Rule,
}

impl<'a, 'b, const COMPONENT: u32> ComponentDigits<'a, 'b, COMPONENT> {
    #[inline(always)]
    fn of(bytes: &'b mut Bytes<'a>) -> Self {
        let rule = Rule::of(bytes.word, COMPONENT);
        ComponentDigits { bytes, rule }
    }

    /// What stands left of the separator at the cursor, or left of its run.
    #[inline(always)]
    fn left_side(&self) -> Class {
        if self.bytes.counts[COMPONENT as usize] > 0 {
            return Class::Digit;
        }
        let mut before = &self.bytes.text[..self.bytes.index];
        while let [rest @ .., last] = before {
            if !self.rule.consecutive || !self.rule.is_separator(*last) {
                break;
            }
            before = rest;
        }
        self.rule.class(before.last())
    }

    /// Moves the cursor past the separators that it stands on, if they are dropped.
    #[inline(always)]
    fn pass_separators(&mut self) {
        let text = self.bytes.text;
        let mut end = self.bytes.index + 1;
        while self.rule.consecutive && end < text.len() && self.rule.is_separator(text[end]) {
            end += 1;
        }
        if self.rule.drops(self.left_side(), self.rule.class(text.get(end))) {
            self.bytes.index = end;
        }
    }
}

impl<'a, const COMPONENT: u32> Digits<'a> for ComponentDigits<'a, '_, COMPONENT> {
    #[inline(always)]
    fn peek(&mut self) -> Option<&'a u8> {
        let byte = self.bytes.text.get(self.bytes.index)?;
        if self.rule.is_contiguous() || !self.rule.is_separator(*byte) {
            return Some(byte);
        }
        self.pass_separators();
        self.bytes.text.get(self.bytes.index)
    }

    #[inline(always)]
    fn current_count(&self) -> usize {
        if self.rule.is_contiguous() {
            self.bytes.current_count()
        } else {
            self.bytes.counts[COMPONENT as usize]
        }
    }

    #[inline(always)]
    fn cursor(&self) -> usize {
        self.bytes.index
    }

    #[inline(always)]
    fn is_digit(&self, byte: u8) -> bool {
        self.rule.is_digit(byte)
    }

    #[inline(always)]
    fn skip_zeros(&mut self) -> usize {
        let mut zeros = 0;
        while let Some(b'0') = self.peek() {
            self.bytes.index += 1;
            self.bytes.counts[COMPONENT as usize] += 1;
            zeros += 1;
        }
        zeros
    }

    #[inline(always)]
    fn pass_eight(&mut self) -> Option<u64> {
        if !self.rule.is_contiguous() {
            return None;
        }
        let eight = self.bytes.text[self.bytes.index..].first_chunk()?;
        self.bytes.index += 8;
        Some(u64::from_le_bytes(*eight))
    }
}

impl<'a, const COMPONENT: u32> Iterator for ComponentDigits<'a, '_, COMPONENT> {
    type Item = &'a u8;

    #[inline(always)]
    fn next(&mut self) -> Option<&'a u8> {
        let byte = self.peek()?;
        self.bytes.index += 1;
        if !self.rule.is_contiguous() && self.rule.is_digit(*byte) {
            self.bytes.counts[COMPONENT as usize] += 1;
        }
        Some(byte)
    }
}
