//! Links build/libusbfs_iso.a, which `make lib` makes.

fn main() {
    let root = std::env::var("CARGO_MANIFEST_DIR").expect("cargo sets it");
    println!("cargo:rustc-link-search=native={root}/../../build");
    println!("cargo:rustc-link-lib=static=usbfs_iso");
    println!("cargo:rerun-if-changed={root}/../../build/libusbfs_iso.a");
}
