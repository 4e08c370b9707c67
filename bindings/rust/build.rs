// Finds libocb_c.a, which library/build makes, in the folder that OCB_LIBRARY names or in the repository's target/library.
use std::{env, path::PathBuf, process};

fn fail(what: &str) -> ! {
    eprintln!("rukensaz: {what}");
    process::exit(1);
}

fn main() {
    println!("cargo:rerun-if-env-changed=OCB_LIBRARY");
    let folder = match env::var_os("OCB_LIBRARY") {
        Some(folder) => PathBuf::from(folder),
        None => PathBuf::from(env::var_os("CARGO_MANIFEST_DIR").unwrap()).join("../../target/library"),
    };
    if folder.is_relative() {
        // cargo runs this in the crate's own folder, so a relative path would not start where the user is
        fail(&format!(
            "OCB_LIBRARY must be an absolute path, and it is {}",
            folder.display()
        ));
    }
    let archive = folder.join("libocb_c.a");
    if !archive.is_file() {
        fail(&format!(
            "no {}: run library/build, or set OCB_LIBRARY to the folder that has it",
            archive.display()
        ));
    }
    println!("cargo:rerun-if-changed={}", archive.display());
    println!("cargo:rustc-link-search=native={}", folder.display());
    println!("cargo:rustc-link-lib=static=ocb_c");
}
