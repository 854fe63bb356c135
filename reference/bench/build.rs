//! Compiles the plain printer and parser of listings, at the level at which the archive
//! is compiled.

use std::env;
use std::path::PathBuf;
use std::process::Command;

const SOURCE: &str = "plain/listing.cpp";

fn main() {
    println!("cargo:rerun-if-changed={SOURCE}");
    println!("cargo:rerun-if-env-changed=CXX");
    let folder = PathBuf::from(env::var_os("OUT_DIR").expect("cargo sets this"));
    let object = folder.join("plain_listing.o");
    let compiler = env::var("CXX").unwrap_or_else(|_| "c++".to_string());
    let flags = ["-std=c++17", "-O3", "-Wall", "-Wextra", "-fno-exceptions", "-fno-rtti", "-c"];
    run(Command::new(compiler).args(flags).arg("-o").arg(&object).arg(SOURCE));
    let archive = folder.join("libplain_listing.a");
    run(Command::new("ar").arg("crs").arg(&archive).arg(&object));
    println!("cargo:rustc-link-search=native={}", folder.display());
    println!("cargo:rustc-link-lib=static=plain_listing");
}

fn run(command: &mut Command) {
    let status = command.status();
    assert!(status.is_ok_and(|status| status.success()), "failed: {command:?}");
}
