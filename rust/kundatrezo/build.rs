//! Links libkundatrezo.a from the folder that the environment names.

use std::env;
use std::path::Path;

const FOLDER: &str = "KUNDATREZO_LIB_DIR";
const LIBRARY: &str = "libkundatrezo.a";

fn main() {
    println!("cargo::rerun-if-env-changed={FOLDER}");
    let Ok(folder) = env::var(FOLDER) else {
        println!(
            "cargo::error=set {FOLDER} to the folder of {LIBRARY}, an absolute path; in Kundatrezo's repository, './setup --library' gets it ready and prints that folder"
        );
        return;
    };
    let library = Path::new(&folder).join(LIBRARY);
    if !library.is_absolute() || !library.is_file() {
        println!("cargo::error=there is no {LIBRARY} in '{folder}': {FOLDER} is to be the absolute path of its folder");
        return;
    }
    println!("cargo::rerun-if-changed={}", library.display());
    println!("cargo::rustc-link-search=native={folder}");
    println!("cargo::rustc-link-lib=static=kundatrezo");
}
