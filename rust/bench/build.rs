//! Links the static library that scripts/static_libraries.sh writes to the repository's target/.

use std::env;
use std::path::PathBuf;

fn main() {
    println!("cargo::rustc-check-cfg=cfg(has_library)");
    let package = PathBuf::from(env::var_os("CARGO_MANIFEST_DIR").expect("cargo names the package"));
    let folder = package.join("../../target/staticlib");
    let library = folder.join("libqdesk.a");
    println!("cargo::rerun-if-changed={}", library.display());
    if library.is_file() {
        println!("cargo::rustc-cfg=has_library");
        println!("cargo::rustc-link-search=native={}", folder.display());
        println!("cargo::rustc-link-lib=static=qdesk");
    } else {
        println!("cargo::warning=no target/staticlib/libqdesk.a in the repository: run `sh scripts/static_libraries.sh` there");
    }
}
