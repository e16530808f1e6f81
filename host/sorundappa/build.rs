//! Links the proved archive of this machine, `target/native/libcabinet.a` at the root of the repository.
use std::{env, path::PathBuf, process};

fn main() {
    let here =
        PathBuf::from(env::var("CARGO_MANIFEST_DIR").expect("cargo says where the crate is"));
    let folder = env::var("SORUNDAPPA_NATIVE")
        .map(PathBuf::from)
        .unwrap_or_else(|_| here.join("../../target/native"));
    let archive = folder.join("libcabinet.a");
    println!("cargo:rerun-if-env-changed=SORUNDAPPA_NATIVE");
    println!("cargo:rerun-if-changed={}", archive.display());
    if !archive.exists() {
        eprintln!(
            "sorundappa: there is no {}: make it with tools/native-lib cabinet",
            archive.display()
        );
        process::exit(1);
    }
    println!("cargo:rustc-link-search=native={}", folder.display());
    println!("cargo:rustc-link-lib=static=cabinet");
}
