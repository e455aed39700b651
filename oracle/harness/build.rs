//! Takes the original from the path in FASTPSBT_RS. Its text is compiled as it is, to its last byte; one declaration is put
//! behind it, of `inside.rs` as a module within it, so that private fields can be shown.

use std::{env, fs, path::Path};

fn main() {
    println!("cargo:rerun-if-env-changed=FASTPSBT_RS");
    let Ok(original) = env::var("FASTPSBT_RS") else {
        panic!("set FASTPSBT_RS to the path of the original, apps/bitcoin/common/src/fastpsbt.rs of LedgerHQ/vanadium");
    };
    println!("cargo:rerun-if-changed={original}");
    let mut text = fs::read_to_string(&original).unwrap_or_else(|e| panic!("{original}: {e}"));
    let inside = Path::new(&env::var("CARGO_MANIFEST_DIR").unwrap()).join("src/inside.rs");
    println!("cargo:rerun-if-changed={}", inside.display());
    text.push_str(&format!("\n#[path = {:?}]\npub mod inside;\n", inside.to_str().unwrap()));
    let out = env::var("OUT_DIR").unwrap();
    fs::write(Path::new(&out).join("fastpsbt.rs"), text).unwrap();
    // `#[path]` takes no computed text, so the declaration is written here and included.
    let module = format!("#[path = {:?}]\nmod fastpsbt;\n", Path::new(&out).join("fastpsbt.rs").to_str().unwrap());
    fs::write(Path::new(&out).join("module.rs"), module).unwrap();
}
