//! The crate lexical-util itself.

use crate::calls::{Buffer, Buffers, Digits};
use crate::word::Rule;
use lexical_util::iterator::{AsBytes, Bytes, DigitsIter, Iter};

/// The buffers of a word.
pub struct Original<const WORD: u128>;

impl<const WORD: u128> Buffers for Original<WORD> {
    type Bytes<'a> = Bytes<'a, WORD>;

    fn radix(_word: u128) -> u32 {
        Rule::<WORD>::RADIX
    }
}

impl<'a, const WORD: u128> Buffer<'a> for Bytes<'a, WORD> {
    #[inline(always)]
    fn over(text: &'a [u8], _word: u128) -> Self {
        text.bytes::<WORD>()
    }

    #[inline(always)]
    fn integer(&mut self) -> impl Digits<'a> {
        self.integer_iter()
    }

    #[inline(always)]
    fn fraction(&mut self) -> impl Digits<'a> {
        self.fraction_iter()
    }

    #[inline(always)]
    fn exponent(&mut self) -> impl Digits<'a> {
        self.exponent_iter()
    }

    #[inline(always)]
    fn current_count(&self) -> usize {
        Iter::current_count(self)
    }
}

impl<'a, I: DigitsIter<'a>> Digits<'a> for I {
    #[inline(always)]
    fn peek(&mut self) -> Option<&'a u8> {
        DigitsIter::peek(self)
    }

    #[inline(always)]
    fn current_count(&self) -> usize {
        Iter::current_count(self)
    }

    #[inline(always)]
    fn cursor(&self) -> usize {
        Iter::cursor(self)
    }

    #[inline(always)]
    fn is_digit(&self, byte: u8) -> bool {
        DigitsIter::is_digit(self, byte)
    }

    #[inline(always)]
    fn skip_zeros(&mut self) -> usize {
        DigitsIter::skip_zeros(self)
    }

    #[inline(always)]
    fn pass_eight(&mut self) -> Option<u64> {
        let eight = self.peek_u64()?;
        // SAFETY: eight bytes are left, since `peek_u64` answered them.
        unsafe { self.step_by_unchecked(8) };
        Some(u64::from_le(eight))
    }
}
