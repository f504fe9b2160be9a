//! Links the static library that `rt lib` makes in `crates/digit_bench`, or the one in the folder
//! that `DIGIT_BENCH_LIB` names.

use std::env;
use std::path::{Path, PathBuf};

fn main() {
    println!("cargo:rerun-if-env-changed=DIGIT_BENCH_LIB");
    let folder = env::var_os("DIGIT_BENCH_LIB").map_or_else(own_library, PathBuf::from);
    let archive = folder.join("libdigit_bench.a");
    assert!(archive.is_file(), "{} is missing: run bench/run", archive.display());
    println!("cargo:rerun-if-changed={}", archive.display());
    println!("cargo:rustc-link-search=native={}", folder.display());
    println!("cargo:rustc-link-lib=static=digit_bench");
}

fn own_library() -> PathBuf {
    Path::new(env!("CARGO_MANIFEST_DIR")).join("../crates/digit_bench/out")
}
