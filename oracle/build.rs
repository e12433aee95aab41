//! Links the static libraries of crates `sheet`, `page`, `c_calls` and `store_calls` where
//! PLAN_SHEET_LIBRARY, PAGES_LIBRARY, RUN_LIBRARY and STORE_LIBRARY name them.

use std::env;
use std::path::Path;

fn main() {
    link("PLAN_SHEET_LIBRARY", "linked");
    link("PAGES_LIBRARY", "pages_linked");
    link("RUN_LIBRARY", "run_linked");
    link("STORE_LIBRARY", "store_linked");
}

fn link(variable: &str, condition: &str) {
    println!("cargo::rustc-check-cfg=cfg({condition})");
    println!("cargo::rerun-if-env-changed={variable}");
    if let Some(library) = env::var_os(variable) {
        let path = Path::new(&library).canonicalize().expect("the library is a file");
        let folder = path.parent().expect("a file stands in a folder");
        let stem = path.file_stem().and_then(|stem| stem.to_str());
        let name = stem.and_then(|stem| stem.strip_prefix("lib")).expect("libNAME.a");
        println!("cargo::rerun-if-changed={}", path.display());
        println!("cargo::rustc-link-search=native={}", folder.display());
        println!("cargo::rustc-link-lib=static={name}");
        println!("cargo::rustc-cfg={condition}");
    }
}
