//! Finds the library: `libsefunjaro.a` of the folder that the environment variable SEFUNJARO_FOLDER names, as the one that
//! `bin/make_library` made, or else what pkg-config knows as `sefunjaro`.

use std::env;
use std::path::Path;
use std::process::Command;

/// The least version of the library that has all the calls which the crate declares.
const LEAST: &str = concat!("sefunjaro >= ", env!("CARGO_PKG_VERSION"));

fn main() {
    for variable in ["DOCS_RS", "SEFUNJARO_FOLDER", "PKG_CONFIG", "PKG_CONFIG_PATH"] {
        println!("cargo:rerun-if-env-changed={variable}");
    }
    println!("cargo:rerun-if-changed=build.rs");
    // The docs are built where there is no library: nothing is linked for them.
    if env::var_os("DOCS_RS").is_some() {
        return;
    }
    match env::var("SEFUNJARO_FOLDER") {
        Ok(folder) => link_archive(&folder),
        Err(_) => link_packaged(),
    }
}

fn link_archive(folder: &str) {
    let archive = Path::new(folder).join("libsefunjaro.a");
    assert!(archive.is_file(), "there is no {}: bin/make_library makes it", archive.display());
    println!("cargo:rerun-if-changed={}", archive.display());
    println!("cargo:rustc-link-search=native={folder}");
    println!("cargo:rustc-link-lib=static=sefunjaro");
}

fn link_packaged() {
    let program = env::var("PKG_CONFIG").unwrap_or_else(|_| String::from("pkg-config"));
    let major: u32 = env!("CARGO_PKG_VERSION_MAJOR").parse().expect("a major version is a number");
    let next = format!("sefunjaro < {}", major + 1);
    let told = Command::new(&program).args(["--libs-only-L", LEAST, next.as_str()]).output();
    let told = told.unwrap_or_else(|error| panic!("{program}: {error}; SEFUNJARO_FOLDER may name the library's folder instead"));
    assert!(told.status.success(), "{}SEFUNJARO_FOLDER may name the library's folder instead", String::from_utf8_lossy(&told.stderr));
    for folder in String::from_utf8_lossy(&told.stdout).split_whitespace().filter_map(|word| word.strip_prefix("-L")) {
        println!("cargo:rustc-link-search=native={folder}");
    }
    println!("cargo:rustc-link-lib=sefunjaro");
}
