// Links the port's static libraries, libhost.a, libfactor_host.a and libsolver_host.a, from the folder that
// PIERBRAMBLE_STATICLIB names or else from target/staticlib of the repository that this workspace stands in.

use std::env;
use std::path::{Path, PathBuf};
use std::process::exit;

const FOLDER: &str = "PIERBRAMBLE_STATICLIB";

/// compare/port is this crate's folder, so the repository is two steps up.
fn default_folder() -> PathBuf {
    let crate_folder = env::var("CARGO_MANIFEST_DIR").expect("cargo sets CARGO_MANIFEST_DIR");
    Path::new(&crate_folder).join("../../target/staticlib")
}

/// The libraries, as scripts/staticlib.sh names them.
const LIBRARIES: [&str; 3] = ["host", "factor_host", "solver_host"];

/// Links one of them, or says how it is built.
fn link(folder: &Path, name: &str) {
    let library = folder.join(format!("lib{name}.a"));
    println!("cargo:rerun-if-changed={}", library.display());
    let Ok(library) = library.canonicalize() else {
        eprintln!(
            "A static library of the port is not there: {}",
            library.display()
        );
        eprintln!("Build it with `scripts/staticlib.sh` in the repository,");
        eprintln!("or name the folder that holds it in {FOLDER} (an absolute path).");
        exit(1);
    };
    let folder = library.parent().expect("a file stands in a folder");
    println!("cargo:rustc-link-search=native={}", folder.display());
    println!("cargo:rustc-link-lib=static={name}");
}

fn main() {
    println!("cargo:rerun-if-env-changed={FOLDER}");
    println!("cargo:rerun-if-changed=build.rs");
    let folder = env::var_os(FOLDER).map_or_else(default_folder, PathBuf::from);
    for name in LIBRARIES {
        link(&folder, name);
    }
}
