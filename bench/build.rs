// The proved archive that `rt lib` writes in the folder of the crate `workbench`.
fn main() {
    println!("cargo:rustc-link-search=native=../crates/workbench/out");
    println!("cargo:rustc-link-lib=static=workbench");
    println!("cargo:rerun-if-changed=../crates/workbench/out/libworkbench.a");
}
