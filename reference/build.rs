//! With the feature `library`, links the static library that LEMONBILGE_STATICLIB names: the path of
//! out/libNAME.a, below the crate. Without the feature there is nothing to do.

use std::env;
use std::path::Path;

fn main() {
    println!("cargo:rerun-if-env-changed=LEMONBILGE_STATICLIB");
    if env::var_os("CARGO_FEATURE_LIBRARY").is_none() {
        return;
    }
    let path = env::var("LEMONBILGE_STATICLIB").expect("LEMONBILGE_STATICLIB names the static library");
    let path = Path::new(&path).canonicalize().expect("the static library stands at its path");
    let folder = path.parent().expect("a file stands in a folder");
    let stem = path.file_stem().and_then(|stem| stem.to_str()).expect("the file has a name");
    let name = stem.strip_prefix("lib").expect("the file is called libNAME.a");
    println!("cargo:rerun-if-changed={}", path.display());
    println!("cargo:rustc-link-search=native={}", folder.display());
    println!("cargo:rustc-link-lib=static={name}");
}
