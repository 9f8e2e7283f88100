//! Compiles the Boost side (Debian's libboost-graph-dev) and links it and the proved archive.

use std::path::PathBuf;
use std::process::Command;

fn run(command: &mut Command) {
    let status = command.status().unwrap_or_else(|error| panic!("{command:?}: {error}"));
    assert!(status.success(), "{command:?}");
}

fn main() {
    let out = PathBuf::from(std::env::var("OUT_DIR").expect("cargo sets OUT_DIR"));
    let (object, library) = (out.join("boost.o"), out.join("libboost_side.a"));
    let compiler = std::env::var("CXX").unwrap_or_else(|_| "c++".into());
    run(Command::new(compiler).args(["-std=c++17", "-O3", "-DNDEBUG", "-c", "src/boost.cpp", "-o"]).arg(&object));
    run(Command::new("ar").arg("crs").arg(&library).arg(&object));
    let archive = "../../target/staticlib";
    println!("cargo:rustc-link-search=native={}", out.display());
    println!("cargo:rustc-link-lib=static=boost_side");
    println!("cargo:rustc-link-lib=stdc++");
    println!("cargo:rustc-link-search=native={archive}");
    println!("cargo:rustc-link-lib=static=pnl");
    println!("cargo:rerun-if-changed=src/boost.cpp");
    println!("cargo:rerun-if-changed={archive}/libpnl.a");
    println!("cargo:rerun-if-env-changed=CXX");
}
