//! Links the library that `tools/build_c` made: `libgregorio.a` in the folder that `GREGORIO_LIBRARY` names, or else where that script, an archive or Debian's package
//! puts it.

use std::env;
use std::path::{Path, PathBuf};
use std::process;

/// Where the library lies beside this crate: in the repository, in an archive, and in Debian.
const FOLDERS: [&str; 3] = ["../crates/gregorio_c/out/c", "../../../../lib", "../../../../lib/x86_64-linux-gnu"];
const LIBRARY: &str = "libgregorio.a";

/// Returns the folder that is named, or else the first one that has the library.
fn folder() -> Option<PathBuf> {
    let here = Path::new(env!("CARGO_MANIFEST_DIR"));
    let places = match env::var_os("GREGORIO_LIBRARY") {
        Some(named) => vec![PathBuf::from(named)],
        None => FOLDERS.iter().map(|it| here.join(it)).collect(),
    };
    places.into_iter().find(|it| it.join(LIBRARY).is_file())
}

fn main() {
    println!("cargo:rerun-if-env-changed=GREGORIO_LIBRARY");
    // The documentation is made without the library.
    if env::var_os("DOCS_RS").is_some() {
        return;
    }
    let folder = folder().unwrap_or_else(|| {
        eprintln!("there is no {LIBRARY}: run tools/build_c, or name the library's folder in GREGORIO_LIBRARY");
        process::exit(1);
    });
    println!("cargo:rerun-if-changed={}", folder.join(LIBRARY).display());
    println!("cargo:rustc-link-search=native={}", folder.display());
    println!("cargo:rustc-link-lib=static=gregorio");
}
