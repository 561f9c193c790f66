//! Links the proved archive: that of the folder `STRM_C_DIR`, or else of the `lib` folder of the package in which
//! this crate lies. In a package it is one, `libstrm.a`; a folder may have `libstrm_c.a` and the kit's `liblibc_c.a`.

use std::path::{Path, PathBuf};
use std::{env, fs};

fn main() {
    println!("cargo:rerun-if-env-changed=STRM_C_DIR");
    let Some(folder) = folder() else {
        println!("cargo:warning=nothing will link: set STRM_C_DIR to the folder of libstrm.a");
        return;
    };
    println!("cargo:rustc-link-search=native={}", folder.display());
    for name in archives(&folder) {
        let archive = folder.join(format!("lib{name}.a"));
        if is_of_another_machine(&archive) {
            println!("cargo:warning={} is of another machine", archive.display());
        }
        println!("cargo:rerun-if-changed={}", archive.display());
        println!("cargo:rustc-link-lib=static={name}");
    }
}

fn folder() -> Option<PathBuf> {
    if let Some(folder) = env::var_os("STRM_C_DIR") {
        return Some(folder.into());
    }
    let crate_folder = PathBuf::from(env::var_os("CARGO_MANIFEST_DIR")?);
    let packages = crate_folder.ancestors().skip(1).take(3);
    packages
        .map(|package| package.join("lib"))
        .find(|folder| folder.join("libstrm.a").is_file())
}

/// Whether the first object of an archive is for another processor than is built for, by its ELF header.
fn is_of_another_machine(archive: &Path) -> bool {
    let machine = match env::var("CARGO_CFG_TARGET_ARCH").as_deref() {
        Ok("x86_64") => [62, 0],
        Ok("aarch64") => [183, 0],
        _ => return false,
    };
    let bytes = fs::read(archive).unwrap_or_default();
    let object = bytes.windows(4).position(|at| at == b"\x7fELF");
    object.is_some_and(|at| bytes.get(at + 18..at + 20) != Some(&machine))
}

fn archives(folder: &Path) -> &'static [&'static str] {
    if folder.join("libstrm_c.a").is_file() {
        &["strm_c", "libc_c"]
    } else {
        &["strm"]
    }
}
