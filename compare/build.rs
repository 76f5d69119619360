//! Lays out the Rust original from the folder that ZETASKETCH_SRC names, compiles it as the library `original`, and links the archive that
//! `bindings/archive` wrote.

use std::env::var;
use std::path::PathBuf;
use std::process::Command;

fn run(command: &mut Command) {
    let status = command.status().unwrap_or_else(|e| panic!("{command:?}: {e}"));
    assert!(status.success(), "{command:?}: {status}");
}

fn main() {
    let here = PathBuf::from(var("CARGO_MANIFEST_DIR").expect("a build by cargo"));
    let out = PathBuf::from(var("OUT_DIR").expect("a build by cargo"));
    let source = var("ZETASKETCH_SRC").expect("ZETASKETCH_SRC names the folder src of zetasketch-rs");
    // The script `forms` names a folder whose archive has several forms of the library.
    println!("cargo:rustc-check-cfg=cfg(forms)");
    let archive = match var("FORMS") {
        Ok(folder) => {
            println!("cargo:rustc-cfg=forms");
            PathBuf::from(folder)
        }
        Err(_) => here.join("../target/staticlib"),
    };
    assert!(archive.join("libcapi.a").exists(), "target/staticlib/libcapi.a is not there: `bindings/archive` writes it");
    // The probe goes behind the copy that is made here, so an earlier one is overwritten first.
    run(Command::new(here.join("original/prepare")).arg(&source).arg(out.join("original")));
    run(Command::new(var("RUSTC").expect("a build by cargo"))
        .args(["--edition", "2021", "-C", "opt-level=3", "-C", "codegen-units=1", "--crate-type", "rlib", "--crate-name", "original", "-o"])
        .arg(out.join("liboriginal.rlib"))
        .arg(out.join("original/lib.rs")));
    println!("cargo:rustc-link-search={}", out.display());
    println!("cargo:rustc-link-search=native={}", archive.display());
    println!("cargo:rustc-link-lib=static=capi");
    println!("cargo:rerun-if-env-changed=ZETASKETCH_SRC");
    println!("cargo:rerun-if-env-changed=FORMS");
    println!("cargo:rerun-if-changed={source}");
    println!("cargo:rerun-if-changed=original");
    println!("cargo:rerun-if-changed=build.rs");
    println!("cargo:rerun-if-changed={}", archive.join("libcapi.a").display());
}
