//! Links the static library that `rt lib` writes in crates/effbd_c.

use std::env;
use std::path::Path;

fn main() {
    let package = env::var("CARGO_MANIFEST_DIR").expect("cargo names the package's folder");
    let root = Path::new(&package).join("../..");
    let folder = root.join("crates/effbd_c/out");
    let library = folder.join("libeffbd_c.a");
    // A file that is missing counts as changed: the next build looks again.
    println!("cargo::rerun-if-changed={}", library.display());
    if !library.is_file() {
        println!(
            "cargo::error=no crates/effbd_c/out/libeffbd_c.a: run `rt lib` in {}",
            root.join("crates/effbd_c")
                .canonicalize()
                .unwrap_or(root)
                .display()
        );
        return;
    }
    println!("cargo::rustc-link-search=native={}", folder.display());
    println!("cargo::rustc-link-lib=static=effbd_c");
}
