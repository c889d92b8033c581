//! Where `rt lib`, in crates/exports, writes the proved library.
fn main() {
    let library = "../crates/exports/out";
    println!("cargo:rustc-link-search=native={library}");
    println!("cargo:rerun-if-changed={library}/libexports.a");
}
