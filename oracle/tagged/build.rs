//! The same files once more, as built for aarch64: the top byte of an address is not compared.
fn main() {
    println!("cargo::rustc-cfg=target_arch=\"aarch64\"");
}
