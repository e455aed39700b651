//! Takes the original from the path in FASTPSBT_RS, unchanged, and the library from the folder in LIBRARY.

use std::{env, fs, path::Path};

fn main() {
    println!("cargo:rerun-if-env-changed=FASTPSBT_RS");
    println!("cargo:rerun-if-env-changed=LIBRARY");
    let original = env::var("FASTPSBT_RS").expect("FASTPSBT_RS is the path of the original");
    let library = env::var("LIBRARY").expect("LIBRARY is the folder of libfastpsbt.a");
    println!("cargo:rerun-if-changed={original}");
    println!("cargo:rerun-if-changed={library}/libfastpsbt.a");
    println!("cargo:rustc-link-search=native={library}");
    println!("cargo:rustc-link-lib=static=fastpsbt");
    // A copy, since `#[path]` takes no computed text: the declaration is written beside it and included.
    let out = env::var("OUT_DIR").unwrap();
    let copy = Path::new(&out).join("original.rs");
    fs::copy(&original, &copy).unwrap_or_else(|e| panic!("{original}: {e}"));
    fs::write(Path::new(&out).join("module.rs"), format!("#[path = {copy:?}]\nmod original;\n")).unwrap();
}
