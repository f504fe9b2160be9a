//! Links `libdigits.a` of the folder that `DIGITS_LIB` names, or else of `../out`, where `make -C c`
//! writes it, or of `../../../lib`, where `make install` does.

use std::env;
use std::path::Path;

fn main() {
    println!("cargo:rerun-if-env-changed=DIGITS_LIB");
    let here = env::var("CARGO_MANIFEST_DIR").unwrap();
    let folders = match env::var("DIGITS_LIB") {
        Ok(folder) => vec![folder],
        Err(_) => vec![format!("{here}/../out"), format!("{here}/../../../lib")],
    };
    let Some(folder) = folders.iter().find(|it| Path::new(it).join("libdigits.a").exists()) else {
        panic!("no libdigits.a in {folders:?}: run `make -C c`, or set DIGITS_LIB to its folder");
    };
    println!("cargo:rerun-if-changed={folder}/libdigits.a");
    println!("cargo:rustc-link-search=native={folder}");
    println!("cargo:rustc-link-lib=static=digits");
}
