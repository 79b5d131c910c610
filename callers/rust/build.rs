// Links the proved library: target/staticlib/libexport.a, written by `tools/link.sh export`.
use std::path::Path;

fn main() {
    let root = Path::new(env!("CARGO_MANIFEST_DIR")).join("../../target/staticlib");
    println!("cargo:rustc-link-search=native={}", root.display());
    println!("cargo:rustc-link-lib=static=export");
    println!("cargo:rerun-if-changed={}", root.join("libexport.a").display());
}
