//! Links the library that ships with this repository, or the one in the folder that EMKHURTOV_LIB names.

use std::path::PathBuf;
use std::{env, process};

fn main() {
    println!("cargo::rerun-if-env-changed=EMKHURTOV_LIB");
    println!("cargo::rerun-if-changed=build.rs");
    let target = |part| env::var(format!("CARGO_CFG_TARGET_{part}")).unwrap_or_default();
    if (target("ARCH").as_str(), target("OS").as_str()) != ("x86_64", "linux") {
        stop("the library is for Linux on x86-64");
    }
    let folder = match env::var_os("EMKHURTOV_LIB") {
        Some(folder) => PathBuf::from(folder),
        None => PathBuf::from(env::var("CARGO_MANIFEST_DIR").unwrap()).join("../../lib/x86_64-linux"),
    };
    let library = folder.join("libemkhurtov.a");
    println!("cargo::rerun-if-changed={}", library.display());
    if !library.is_file() {
        stop(&format!(
            "the library is not there: {}. EMKHURTOV_LIB, where it is set, names its folder",
            library.display()
        ));
    }
    println!("cargo::rustc-link-search=native={}", folder.display());
    println!("cargo::rustc-link-lib=static=emkhurtov");
}

fn stop(why: &str) -> ! {
    println!("cargo::error={why}");
    process::exit(1);
}
