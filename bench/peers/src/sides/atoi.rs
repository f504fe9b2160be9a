//! atoi.

use super::each;
use crate::texts::Text;

pub fn u64(text: &Text) -> u64 {
    each(text, |it| atoi::atoi::<u64>(it).unwrap_or(0))
}
