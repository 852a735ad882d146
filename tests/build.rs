// Links the archives that `bash scripts/build` wrote for the names of libraries.txt. scripts/test runs that first: cargo runs no rt.
use std::path::Path;

fn main() {
    let here = std::env::var("CARGO_MANIFEST_DIR").unwrap();
    let folder = Path::new(&here).join("../target/staticlib");
    println!("cargo:rustc-link-search=native={}", folder.display());
    println!("cargo:rerun-if-changed=libraries.txt");
    for name in std::fs::read_to_string(Path::new(&here).join("libraries.txt")).unwrap().split_whitespace() {
        println!("cargo:rustc-link-lib=static={name}");
        println!("cargo:rerun-if-changed={}", folder.join(format!("lib{name}.a")).display());
    }
}
