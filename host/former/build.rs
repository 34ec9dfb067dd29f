// Links an earlier build of the proved library, whose functions `host/measure --former` has renamed. Its wrapper is the present one's text
// with these names, so that there is only one to keep.
use std::path::PathBuf;
use std::{env, fs};

fn main() {
    let here = PathBuf::from(env::var("CARGO_MANIFEST_DIR").unwrap());
    let folder = here.join("../../target/staticlib");
    println!("cargo:rustc-link-search=native={}", folder.display());
    println!("cargo:rustc-link-lib=static=former");
    println!("cargo:rerun-if-changed={}", folder.join("libformer.a").display());

    let wrapper = here.join("../jesovanga/src/lib.rs");
    println!("cargo:rerun-if-changed={}", wrapper.display());
    let text = fs::read_to_string(wrapper).unwrap().replace("jesovanga_", "former_");
    // A file that is included has no `//!`.
    let lines = text.lines().filter(|line| !line.starts_with("//!"));
    let made = PathBuf::from(env::var("OUT_DIR").unwrap()).join("wrapper.rs");
    fs::write(made, lines.collect::<Vec<_>>().join("\n")).unwrap();
}
