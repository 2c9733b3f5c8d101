//! Finds the archive of the proved functions: in the folder that `TICKET_WORD_LIB_DIR` names, in this package, or in
//! the repository that it stands in.
use std::env::var;
use std::path::PathBuf;

fn main() {
    println!("cargo:rerun-if-env-changed=TICKET_WORD_LIB_DIR");
    let here = PathBuf::from(var("CARGO_MANIFEST_DIR").unwrap_or_default());
    let machine = var("CARGO_CFG_TARGET_ARCH").unwrap_or_default();
    let system = var("CARGO_CFG_TARGET_OS").unwrap_or_default();
    let place = format!("{machine}-{system}");
    let named = var("TICKET_WORD_LIB_DIR").ok().map(PathBuf::from);
    let folders = named.into_iter().chain([here.join("lib").join(&place), here.join("../../../dist").join(&place)]);
    match folders.map(|folder| folder.join("libticket_word.a")).find(|archive| archive.is_file()) {
        Some(archive) => {
            println!("cargo:rerun-if-changed={}", archive.display());
            if let Some(folder) = archive.parent() {
                println!("cargo:rustc-link-search=native={}", folder.display());
            }
            println!("cargo:rustc-link-lib=static=ticket_word");
        }
        None => println!("cargo:warning=there is no libticket_word.a for {place}: name its folder in TICKET_WORD_LIB_DIR"),
    }
}
