//! The same calls in Rust, with the word as a const parameter, so that a program has code of its
//! own for each word. Each call looks again at the sides of a separator. So a run that is kept
//! costs the square of its length.

use crate::calls::{Buffer, Buffers, Digits};
use crate::word::{Class, Rule, EXPONENT, FRACTION, INTEGER};

/// The buffers of a word.
pub struct Fixed<const WORD: u128>;

impl<const WORD: u128> Buffers for Fixed<WORD> {
    type Bytes<'a> = Bytes<'a, WORD>;

    fn radix(_word: u128) -> u32 {
        Rule::<WORD>::RADIX
    }
}

/// A buffer with a cursor and the counts of the three components.
pub struct Bytes<'a, const WORD: u128> {
    text: &'a [u8],
    index: usize,
    counts: [usize; 3],
}

impl<'a, const WORD: u128> Buffer<'a> for Bytes<'a, WORD> {
    #[inline(always)]
    fn over(text: &'a [u8], _word: u128) -> Self {
        Bytes { text, index: 0, counts: [0; 3] }
    }

    #[inline(always)]
    fn integer(&mut self) -> impl Digits<'a> {
        ComponentDigits::<WORD, INTEGER> { bytes: self }
    }

    #[inline(always)]
    fn fraction(&mut self) -> impl Digits<'a> {
        ComponentDigits::<WORD, FRACTION> { bytes: self }
    }

    #[inline(always)]
    fn exponent(&mut self) -> impl Digits<'a> {
        ComponentDigits::<WORD, EXPONENT> { bytes: self }
    }

    #[inline(always)]
    fn current_count(&self) -> usize {
        if Rule::<WORD>::SEPARATOR == 0 {
            self.index
        } else {
            self.counts.iter().sum()
        }
    }
}

/// The digits of a component in a [`Bytes`].
struct ComponentDigits<'a, 'b, const WORD: u128, const COMPONENT: u32> {
    bytes: &'b mut Bytes<'a, WORD>,
}

impl<'a, const WORD: u128, const COMPONENT: u32> ComponentDigits<'a, '_, WORD, COMPONENT> {
    /// Where the separators end that are judged together with the one at the cursor.
    #[inline(always)]
    fn span_end(&self) -> usize {
        let text = self.bytes.text;
        let mut end = self.bytes.index + 1;
        if Rule::<WORD, COMPONENT>::CONSECUTIVE {
            while end < text.len() && Rule::<WORD, COMPONENT>::is_separator(text[end]) {
                end += 1;
            }
        }
        end
    }

    /// Whether the separators from the cursor to `end` are dropped.
    #[inline(always)]
    fn is_dropped(&self, end: usize) -> bool {
        Rule::<WORD, COMPONENT>::DROPS_ALL || {
            let right = Rule::<WORD, COMPONENT>::class(self.bytes.text.get(end));
            Rule::<WORD, COMPONENT>::drops(self.left_side(), right)
        }
    }

    /// What stands left of the separator at the cursor, or left of its run.
    #[inline(always)]
    fn left_side(&self) -> Class {
        if self.bytes.counts[COMPONENT as usize] > 0 {
            return Class::Digit;
        }
        let mut before = &self.bytes.text[..self.bytes.index];
        if Rule::<WORD, COMPONENT>::CONSECUTIVE {
            while let [rest @ .., last] = before {
                if !Rule::<WORD, COMPONENT>::is_separator(*last) {
                    break;
                }
                before = rest;
            }
        }
        Rule::<WORD, COMPONENT>::class(before.last())
    }
}

impl<'a, const WORD: u128, const COMPONENT: u32> Digits<'a>
    for ComponentDigits<'a, '_, WORD, COMPONENT>
{
    #[inline(always)]
    fn peek(&mut self) -> Option<&'a u8> {
        let byte = self.bytes.text.get(self.bytes.index)?;
        if Rule::<WORD, COMPONENT>::CONTIGUOUS || !Rule::<WORD, COMPONENT>::is_separator(*byte) {
            return Some(byte);
        }
        let end = self.span_end();
        if self.is_dropped(end) {
            self.bytes.index = end;
        }
        self.bytes.text.get(self.bytes.index)
    }

    #[inline(always)]
    fn current_count(&self) -> usize {
        if Rule::<WORD, COMPONENT>::CONTIGUOUS {
            self.bytes.current_count()
        } else {
            self.bytes.counts[COMPONENT as usize]
        }
    }

    #[inline(always)]
    fn cursor(&self) -> usize {
        self.bytes.index
    }

    #[inline(always)]
    fn is_digit(&self, byte: u8) -> bool {
        Rule::<WORD, COMPONENT>::is_digit(byte)
    }

    #[inline(always)]
    fn skip_zeros(&mut self) -> usize {
        let mut zeros = 0;
        while let Some(b'0') = self.peek() {
            self.bytes.index += 1;
            self.bytes.counts[COMPONENT as usize] += 1;
            zeros += 1;
        }
        zeros
    }

    #[inline(always)]
    fn pass_eight(&mut self) -> Option<u64> {
        if !Rule::<WORD, COMPONENT>::CONTIGUOUS {
            return None;
        }
        let eight = self.bytes.text[self.bytes.index..].first_chunk()?;
        self.bytes.index += 8;
        Some(u64::from_le_bytes(*eight))
    }
}

impl<'a, const WORD: u128, const COMPONENT: u32> Iterator
    for ComponentDigits<'a, '_, WORD, COMPONENT>
{
    type Item = &'a u8;

    #[inline(always)]
    fn next(&mut self) -> Option<&'a u8> {
        let byte = self.peek()?;
        self.bytes.index += 1;
        if !Rule::<WORD, COMPONENT>::CONTIGUOUS && self.is_digit(*byte) {
            self.bytes.counts[COMPONENT as usize] += 1;
        }
        Some(byte)
    }
}
