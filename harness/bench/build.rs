//! Links liblowering_c.a, which lies in the folder that FITHONGU_LIBRARY names.

use std::env;

fn main() {
    let folder = env::var("FITHONGU_LIBRARY").expect("FITHONGU_LIBRARY names a folder");
    println!("cargo:rerun-if-env-changed=FITHONGU_LIBRARY");
    println!("cargo:rerun-if-changed={folder}/liblowering_c.a");
    println!("cargo:rustc-link-search=native={folder}");
    println!("cargo:rustc-link-lib=static=lowering_c");
}
