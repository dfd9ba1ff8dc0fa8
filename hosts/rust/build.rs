//! Links libpasa.a: from the folder that PASA_LIB_DIR names, or from target/staticlib of the repository that this crate stands in.
use std::env;
use std::path::PathBuf;

fn main() {
    println!("cargo:rerun-if-env-changed=PASA_LIB_DIR");
    let folder = match env::var_os("PASA_LIB_DIR") {
        Some(folder) => PathBuf::from(folder),
        None => PathBuf::from(env::var_os("CARGO_MANIFEST_DIR").unwrap()).join("../../target/staticlib"),
    };
    let archive = folder.join("libpasa.a");
    if !archive.is_file() {
        println!(
            "cargo:warning=no {}: run `hosts/archive` in the repository, or set PASA_LIB_DIR to the archive's folder",
            archive.display()
        );
        std::process::exit(1);
    }
    println!("cargo:rerun-if-changed={}", archive.display());
    println!("cargo:rustc-link-search=native={}", folder.display());
    println!("cargo:rustc-link-lib=static=pasa");
}
