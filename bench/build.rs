fn main() {
    let archive = "../target/staticlib";
    println!("cargo:rustc-link-search=native={archive}");
    println!("cargo:rustc-link-lib=static=pnl");
    println!("cargo:rerun-if-changed={archive}/libpnl.a");
}
