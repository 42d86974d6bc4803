// The proved archive that `rt lib` writes in the folder of the crate `stridebank`.
const ARCHIVES: &str = concat!(env!("CARGO_MANIFEST_DIR"), "/../../crates/stridebank/out");

fn main() {
    println!("cargo:rustc-link-search=native={ARCHIVES}");
    println!("cargo:rustc-link-lib=static=stridebank");
    println!("cargo:rerun-if-changed={ARCHIVES}/libstridebank.a");
    println!("cargo:rerun-if-changed=build.rs");
}
