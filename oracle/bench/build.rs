//! Links the proved cycles (build/libbench.a, libbench_lent.a), the C cycle (libc_cycles.a) and the library that it calls
//! (libusbfs_iso.a). Each of the proved ones is a library of its own, so that each call stands in one place of it, as in a
//! host.

fn main() {
    let root = std::env::var("CARGO_MANIFEST_DIR").expect("cargo sets it");
    println!("cargo:rustc-link-search=native={root}/../../build");
    for library in ["bench", "bench_lent", "c_cycles", "usbfs_iso"] {
        println!("cargo:rustc-link-lib=static={library}");
        println!("cargo:rerun-if-changed={root}/../../build/lib{library}.a");
    }
}
