//! Builds the sides in C++ whose headers are there, and links the libraries that `run` names.

use std::env;
use std::path::Path;
use std::process::Command;

/// A side: its file in `cxx`, its header, the processor that it is built for, and what it links.
const SIDES: [(&str, &str, &str, &[&str]); 9] = [
    ("from_chars", "", "x86-64-v2", &[]),
    ("strtod", "", "x86-64-v2", &[]),
    ("fast_float", "fast_float/fast_float.h", "x86-64-v2", &[]),
    (
        "double_conversion",
        "double-conversion/double-conversion.h",
        "x86-64-v2",
        &["static=double-conversion"],
    ),
    ("rapidjson", "rapidjson/reader.h", "x86-64-v2", &[]),
    ("simdjson", "simdjson.h", "haswell", &["dylib=simdjson"]),
    ("to_chars", "", "x86-64-v2", &[]),
    ("snprintf", "", "x86-64-v2", &[]),
    (
        "double_to_string",
        "double-conversion/double-conversion.h",
        "x86-64-v2",
        &["static=double-conversion"],
    ),
];
/// The sides that call `digits.h`.
const FROM_C: [&str; 2] = ["digits", "digits_written"];
/// The libraries that a Rust program calls, and the variables that name their folders.
const LIBRARIES: [(&str, &str); 2] =
    [("digit_bench", "DIGIT_BENCH_LIB"), ("writer_rows", "WRITER_ROWS_LIB")];

fn main() {
    let out = env::var("OUT_DIR").unwrap();
    println!("cargo:rerun-if-changed=cxx");
    println!("cargo:rustc-link-search=native={out}");
    for (name, header, processor, links) in SIDES {
        if !Path::new("/usr/include").join(header).exists() {
            println!("cargo:warning=no {header}");
            continue;
        }
        build(&out, name, processor);
        println!("cargo:rustc-cfg=has_{name}");
        println!("cargo:rustc-link-lib=static=peer_{name}");
        for link in links {
            println!("cargo:rustc-link-lib={link}");
        }
    }
    println!("cargo:rerun-if-env-changed=DIGITS_LIB");
    if let Ok(folder) = env::var("DIGITS_LIB") {
        for name in FROM_C {
            build(&out, name, "x86-64-v2");
            println!("cargo:rustc-cfg=has_{name}");
            println!("cargo:rustc-link-lib=static=peer_{name}");
        }
        println!("cargo:rerun-if-changed={folder}/libdigits.a");
        println!("cargo:rustc-link-search=native={folder}");
        println!("cargo:rustc-link-lib=static=digits");
    }
    for (library, variable) in LIBRARIES {
        println!("cargo:rerun-if-env-changed={variable}");
        if let Ok(folder) = env::var(variable) {
            println!("cargo:rerun-if-changed={folder}/lib{library}.a");
            println!("cargo:rustc-link-search=native={folder}");
            println!("cargo:rustc-link-lib=static={library}");
        }
    }
    println!("cargo:rustc-link-search=native=/usr/lib/x86_64-linux-gnu");
    println!("cargo:rustc-link-lib=dylib=stdc++");
}

fn build(out: &str, name: &str, processor: &str) {
    let object = format!("{out}/{name}.o");
    let compiled = Command::new("g++")
        .args(["-std=c++17", "-O3", "-g1", "-DNDEBUG", "-Ic", "-c"])
        .arg(format!("-march={processor}"))
        .args([&format!("cxx/{name}.cpp"), "-o", &object])
        .status();
    assert!(compiled.unwrap().success());
    let archive = format!("{out}/libpeer_{name}.a");
    let packed = Command::new("ar").args(["rcs", &archive, &object]).status();
    assert!(packed.unwrap().success());
}
