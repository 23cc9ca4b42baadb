// Links libjazmotip.a, which is made from the proved crates, out of the repository's target/staticlib or the folder JAZMOTIP_LIB.
use std::env;
use std::path::PathBuf;
use std::process::exit;

fn main() {
    println!("cargo:rerun-if-env-changed=JAZMOTIP_LIB");
    let package = PathBuf::from(env::var_os("CARGO_MANIFEST_DIR").expect("cargo names the package"));
    let folder = match env::var_os("JAZMOTIP_LIB") {
        Some(folder) => PathBuf::from(folder),
        None => package.join("../../target/staticlib"),
    };
    let archive = folder.join("libjazmotip.a");
    println!("cargo:rerun-if-changed={}", archive.display());
    if !archive.is_file() {
        eprintln!("There is no {}.", archive.display());
        eprintln!("Run `host/archive` in the repository, or name the archive's folder in JAZMOTIP_LIB.");
        exit(1);
    }
    println!("cargo:rustc-link-search=native={}", folder.display());
    println!("cargo:rustc-link-lib=static=jazmotip");
    let archive = archive.canonicalize().expect("the archive's path");
    println!("cargo:rustc-env=JAZMOTIP_ARCHIVE={}", archive.display());
}
