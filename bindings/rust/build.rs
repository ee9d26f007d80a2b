// Links librate_book.a: from the folder that RATE_BOOK_LIB_DIR names, else from where `tools/archive` writes it.
use std::env;
use std::path::PathBuf;

fn main() {
    println!("cargo:rerun-if-env-changed=RATE_BOOK_LIB_DIR");
    let folder = match env::var_os("RATE_BOOK_LIB_DIR") {
        Some(folder) => PathBuf::from(folder),
        None => {
            PathBuf::from(env::var_os("CARGO_MANIFEST_DIR").unwrap()).join("../../target/staticlib")
        }
    };
    let folder = folder.canonicalize().unwrap_or(folder);
    let archive = folder.join("librate_book.a");
    if !archive.is_file() {
        eprintln!(
            "error: {} is missing. Build it by `tools/archive` at the repository's root, or set RATE_BOOK_LIB_DIR to the \
             folder that holds librate_book.a",
            archive.display()
        );
        std::process::exit(1);
    }
    println!("cargo:rerun-if-changed={}", archive.display());
    println!("cargo:rustc-link-search=native={}", folder.display());
    println!("cargo:rustc-link-lib=static=rate_book");
}
