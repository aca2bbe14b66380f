//! Links the library: `libjihfasul.a`, as `./install` names it, or `libnode.a`,
//! as `./evening` and `./test` build it, from the folder that `JIHFASUL_LIB_DIR`
//! names, else from `target/staticlib` at the top of the repository.

use std::env;
use std::path::{Path, PathBuf};

const FOLDER: &str = "JIHFASUL_LIB_DIR";
const NAMES: [&str; 2] = ["jihfasul", "node"];

fn main() {
    let here = env::var("CARGO_MANIFEST_DIR").expect("cargo names this crate's folder");
    let built = Path::new(&here).join("../../target/staticlib");
    let folder = env::var_os(FOLDER).map_or(built, PathBuf::from);
    println!("cargo:rerun-if-env-changed={FOLDER}");
    for name in NAMES {
        let library = folder.join(format!("lib{name}.a"));
        println!("cargo:rerun-if-changed={}", library.display());
    }
    let there = |name: &&str| folder.join(format!("lib{name}.a")).is_file();
    let Some(name) = NAMES.into_iter().find(there) else {
        let path = folder.display();
        eprintln!("no library in {path}: run `./evening`, which builds it, or set {FOLDER}");
        std::process::exit(1);
    };
    println!("cargo:rustc-link-search=native={}", folder.display());
    println!("cargo:rustc-link-lib=static={name}");
}
