//! Finds the static library: in the folder that YUYARISUN_LIB_DIR names, else in target/staticlib
//! of this repository.

use std::path::PathBuf;
use std::{env, process};

fn main() {
    println!("cargo:rerun-if-env-changed=YUYARISUN_LIB_DIR");
    let folder = match env::var_os("YUYARISUN_LIB_DIR") {
        Some(folder) => PathBuf::from(folder),
        None => PathBuf::from(env!("CARGO_MANIFEST_DIR")).join("../target/staticlib"),
    };
    let library = folder.join("libyuyarisun.a");
    println!("cargo:rerun-if-changed={}", library.display());
    if !library.is_file() {
        eprintln!("yuyarisun: there is no {}.", library.display());
        eprintln!("Run `tools/prove staticlib yuyarisun` at the head of the repository, which proves the");
        eprintln!("library and writes it, or name the folder that has it in YUYARISUN_LIB_DIR.");
        process::exit(1);
    }
    println!("cargo:rustc-link-search=native={}", folder.display());
    println!("cargo:rustc-link-lib=static=yuyarisun");
}
