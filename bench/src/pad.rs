//! Where the code lies. A program whose code lies 16 bytes further along is the same program, and
//! can take half as long again: so a program is built with pads of several sizes.

use std::arch::global_asm;

/// How many bytes stand before the code of the program, as `BENCH_PAD` says when it is built.
pub const PAD: usize = match option_env!("BENCH_PAD") {
    Some(bytes) => match usize::from_str_radix(bytes, 10) {
        Ok(bytes) => bytes,
        Err(_) => panic!("BENCH_PAD is no number"),
    },
    None => 0,
};

// Flag R keeps the pad, to which nothing refers.
global_asm!(
    ".pushsection .text.pad, \"axR\", @progbits",
    ".p2align 6",
    ".skip {pad}",
    ".popsection",
    pad = const PAD,
);
