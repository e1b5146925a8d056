//! Names the folder of the engine's library for the programs that link it: a shared object, which they
//! load as they run, or the static library, which becomes a part of them.
//! `ENGINE_LIB` names another folder; a relative one counts from this package.

use std::env;
use std::path::Path;

fn main() {
    let package = env::var("CARGO_MANIFEST_DIR").expect("set by cargo");
    let folder = env::var("ENGINE_LIB").unwrap_or_else(|_| "../../target/staticlib".into());
    let folder = Path::new(&package).join(folder);
    println!("cargo:rustc-link-search=native={}", folder.display());
    // Without these two an old engine would stay a part of them when the library is built anew.
    println!("cargo:rerun-if-env-changed=ENGINE_LIB");
    let library = folder.join("libhost.a");
    if library.exists() {
        println!("cargo:rerun-if-changed={}", library.display());
    }
}
