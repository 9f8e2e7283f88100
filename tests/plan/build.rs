fn main() {
    println!("cargo:rustc-link-search=native=../../target/staticlib");
    println!("cargo:rustc-link-lib=static=pnl");
    println!("cargo:rerun-if-changed=../../target/staticlib/libpnl.a");
}
