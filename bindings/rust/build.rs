//! Finds the archive: in the folder that USHNAZAR_ARCHIVE names, or where `bindings/archive` puts it.
use std::path::PathBuf;
use std::{env, process};

const NAME: &str = "libushnazar.a";

fn main() {
    println!("cargo:rerun-if-env-changed=USHNAZAR_ARCHIVE");
    let folder = match env::var_os("USHNAZAR_ARCHIVE") {
        Some(folder) => PathBuf::from(folder),
        None => PathBuf::from(env::var_os("CARGO_MANIFEST_DIR").unwrap_or_default()).join("../../target/staticlib"),
    };
    let target = env::var("TARGET").unwrap_or_default();
    if !target.starts_with("x86_64-") {
        stop(&format!("the archive is for x86-64, not for {target}"));
    }
    let Ok(folder) = folder.canonicalize() else {
        stop(&missing(&folder));
    };
    let archive = folder.join(NAME);
    if !archive.is_file() {
        stop(&missing(&folder));
    }
    println!("cargo:rerun-if-changed={}", archive.display());
    println!("cargo:rustc-link-search=native={}", folder.display());
    println!("cargo:rustc-link-lib=static=ushnazar");
}

fn missing(folder: &std::path::Path) -> String {
    format!(
        "there is no {NAME} in {}. Make it with `bindings/archive` in the repository's folder, \
         or let USHNAZAR_ARCHIVE name the folder that holds it",
        folder.display()
    )
}

fn stop(why: &str) -> ! {
    eprintln!("ushnazar: {why}");
    process::exit(1)
}
