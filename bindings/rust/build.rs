// Links the static library that `.ci/link lent` writes.
fn main() {
    let here = std::env::var("CARGO_MANIFEST_DIR").expect("cargo sets it");
    println!("cargo:rustc-link-search=native={here}/../../target/staticlib");
    println!("cargo:rustc-link-lib=static=lent");
    println!("cargo:rerun-if-changed=../../target/staticlib/liblent.a");
}
