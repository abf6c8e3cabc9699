//! Links the planner's static library, which `rt lib` in crates/planner_c writes to that folder's out/.

use std::env;
use std::path::Path;

fn main() {
    let manifest = env::var("CARGO_MANIFEST_DIR").expect("cargo sets CARGO_MANIFEST_DIR");
    let folder = Path::new(&manifest).join("../../crates/planner_c/out");
    let library = folder.join("libplanner_c.a");
    println!("cargo::rerun-if-changed=build.rs");
    println!("cargo::rerun-if-changed={}", library.display());
    if !library.exists() {
        println!("cargo::error=crates/planner_c/out/libplanner_c.a is missing: run `rt lib` in crates/planner_c first");
        return;
    }
    println!("cargo::rustc-link-search=native={}", folder.display());
    println!("cargo::rustc-link-lib=static=planner_c");
}
