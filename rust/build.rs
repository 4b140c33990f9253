//! Links libwakubinryo_tables.a, libwakubinryo_qcir.a, libwakubinryo_texts.a and
//! libwakubinryo_reports.a, each from its crate's folder, ../crates/NAME/out, or all
//! from the folder named by the environment variable WAKUBINRYO_LIB_DIR.

use std::env;
use std::path::PathBuf;

const LIBRARIES: [&str; 4] = [
    "wakubinryo_tables",
    "wakubinryo_qcir",
    "wakubinryo_texts",
    "wakubinryo_reports",
];

/// The folder that has a library.
fn folder_of(name: &str) -> PathBuf {
    match env::var_os("WAKUBINRYO_LIB_DIR") {
        Some(folder) => PathBuf::from(folder),
        None => {
            let package = env::var_os("CARGO_MANIFEST_DIR").expect("set by cargo");
            let crates = PathBuf::from(package).join("../crates");
            crates.join(name).join("out")
        }
    }
}

fn main() {
    println!("cargo:rerun-if-env-changed=WAKUBINRYO_LIB_DIR");
    for name in LIBRARIES {
        let folder = folder_of(name);
        let library = folder.join(format!("lib{name}.a"));
        println!("cargo:rerun-if-changed={}", library.display());
        if !library.is_file() {
            panic!(
                "{} is missing: run `rt lib` in the repository's crates/{name}",
                library.display()
            );
        }
        println!("cargo:rustc-link-search=native={}", folder.display());
        println!("cargo:rustc-link-lib=static={name}");
    }
    // For the test that links the C examples.
    let folders = env::join_paths(LIBRARIES.map(folder_of)).expect("no colon in a folder's name");
    let folders = folders.into_string().expect("UTF-8");
    println!("cargo:rustc-env=WAKUBINRYO_LIB_DIRS={folders}");
}
