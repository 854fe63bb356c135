//! Tells the linker where the proved library's archive is: in the folder that
//! LEAFGRAPH_LIB_DIR names, else where the Makefile puts it.

use std::env;
use std::path::{Path, PathBuf};

fn main() {
    println!("cargo:rerun-if-env-changed=LEAFGRAPH_LIB_DIR");
    let folder = match env::var_os("LEAFGRAPH_LIB_DIR") {
        Some(folder) => PathBuf::from(folder),
        None => {
            let package = env::var_os("CARGO_MANIFEST_DIR").expect("cargo sets this");
            Path::new(&package).join("../../build/lib")
        }
    };
    let archive = folder.join("libleafgraph.a");
    if !archive.is_file() {
        println!("cargo:warning=no archive libleafgraph.a in {}", folder.display());
    }
    println!("cargo:rerun-if-changed={}", archive.display());
    println!("cargo:rustc-link-search=native={}", folder.display());
    println!("cargo:rustc-link-lib=static=leafgraph");
}
