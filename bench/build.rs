//! Links the product's static library where it has been made.

use std::env;
use std::path::Path;

fn main() {
    let manifest = env::var("CARGO_MANIFEST_DIR").expect("cargo names the manifest's folder");
    let folder = Path::new(&manifest).join("../target/staticlib");
    let archive = folder.join("libstellarsnare.a");
    println!("cargo:rerun-if-changed={}", archive.display());
    println!("cargo:rustc-check-cfg=cfg(product)");
    if archive.exists() {
        println!("cargo:rustc-cfg=product");
        println!("cargo:rustc-link-search=native={}", folder.display());
    } else {
        println!("cargo:warning=no libstellarsnare.a: run tools/staticlib.sh first");
    }
}
