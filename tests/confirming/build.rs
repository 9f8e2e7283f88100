fn main() {
    println!("cargo:rustc-link-search=native=../../crates/confirming/out");
    println!("cargo:rustc-link-lib=static=confirming");
    println!("cargo:rerun-if-changed=../../crates/confirming/out/libconfirming.a");
}
