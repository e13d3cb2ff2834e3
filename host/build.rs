//! Links the archive that `make lib` writes for the machine that is compiled for: in build/lib-x86_64 or build/lib-aarch64 of this
//! repository, or in the folder that SLAVOTUK_LIB names.
use std::path::{Path, PathBuf};

fn built() -> PathBuf {
    let arch = std::env::var("CARGO_CFG_TARGET_ARCH").expect("cargo names the target");
    Path::new(env!("CARGO_MANIFEST_DIR")).join(format!("../build/lib-{arch}"))
}

fn main() {
    println!("cargo:rerun-if-env-changed=SLAVOTUK_LIB");
    let folder = match std::env::var_os("SLAVOTUK_LIB") {
        Some(named) => PathBuf::from(named),
        None => built(),
    };
    let archive = folder.join("libslavotuk.a");
    println!("cargo:rerun-if-changed={}", archive.display());
    if !archive.is_file() {
        eprintln!(
            "{} is missing: run `make lib` first, or name its folder in SLAVOTUK_LIB",
            archive.display()
        );
        std::process::exit(1);
    }
    println!("cargo:rustc-link-search=native={}", folder.display());
    println!("cargo:rustc-link-lib=static=slavotuk");
}
