// Links libvault_c.a, which `bash scripts/build vault_c` or `scripts/install` wrote: cargo runs no rt.
use std::env::{var, var_os};
use std::path::{Path, PathBuf};

fn folder() -> PathBuf {
    let here = var("CARGO_MANIFEST_DIR").expect("cargo names the crate's folder");
    var_os("VAULT_LIB_DIR").map_or_else(|| Path::new(&here).join("../../target/staticlib"), PathBuf::from)
}

fn target(part: &str) -> String {
    var(format!("CARGO_CFG_TARGET_{part}")).unwrap_or_default()
}

fn main() {
    let folder = folder();
    let archive = folder.join("libvault_c.a");
    println!("cargo::rerun-if-env-changed=VAULT_LIB_DIR");
    println!("cargo::rerun-if-changed={}", archive.display());
    if (target("ARCH").as_str(), target("OS").as_str()) != ("x86_64", "linux") {
        println!("cargo::error=the vault's library is for Linux on x86-64 only");
    } else if !archive.is_file() {
        println!(
            "cargo::error={} is missing: run `bash scripts/build vault_c` at the top of the repository, or set VAULT_LIB_DIR to the folder that has it",
            archive.display()
        );
    } else {
        println!("cargo::rustc-link-search=native={}", folder.display());
        println!("cargo::rustc-link-lib=static=vault_c");
    }
}
