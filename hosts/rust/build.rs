//! Links libhost.a, the proved library: the file or the folder that KITESETTEE_LIB names, else crates/host/out of the repository.
use std::{
    env,
    path::{Path, PathBuf},
    process::exit,
};

const NAME: &str = "libhost.a";

fn stop(words: &str) -> ! {
    eprintln!("kitesettee: {words}");
    exit(1)
}

fn library() -> PathBuf {
    match env::var_os("KITESETTEE_LIB") {
        Some(given) => {
            let given = PathBuf::from(given);
            if given.is_dir() {
                given.join(NAME)
            } else {
                given
            }
        }
        None => Path::new(env!("CARGO_MANIFEST_DIR")).join("../../crates/host/out").join(NAME),
    }
}

fn main() {
    println!("cargo:rerun-if-changed=build.rs");
    println!("cargo:rerun-if-env-changed=KITESETTEE_LIB");
    let arch = env::var("CARGO_CFG_TARGET_ARCH").unwrap_or_default();
    let system = env::var("CARGO_CFG_TARGET_OS").unwrap_or_default();
    if (arch.as_str(), system.as_str()) != ("x86_64", "linux") {
        stop(&format!("the library is for x86-64 Linux, and this build is for {arch} {system}"));
    }
    let file = library();
    println!("cargo:rerun-if-changed={}", file.display());
    if file.file_name() != Some(NAME.as_ref()) {
        stop(&format!("KITESETTEE_LIB names {}, which is neither a folder nor a file {NAME}", file.display()));
    }
    let Ok(file) = file.canonicalize() else {
        stop(&format!("{} is missing: run `rt lib` in the repository's crates/host, or set KITESETTEE_LIB to the file", file.display()));
    };
    let folder = file.parent().expect("a file has a folder");
    println!("cargo:rustc-link-search=native={}", folder.display());
    println!("cargo:rustc-link-lib=static=host");
}
