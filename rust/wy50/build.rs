//! Finds libwy50.a: in the folder that WY50_LIB_DIR names, else where `make lib` puts it in this repository, else where pkg-config knows it.
use std::{
    env,
    path::{Path, PathBuf},
    process::Command,
};

const NAME: &str = "wy50";

fn main() {
    println!("cargo:rerun-if-env-changed=WY50_LIB_DIR");
    println!("cargo:rerun-if-env-changed=PKG_CONFIG_PATH");
    let file = format!("lib{NAME}.a");
    let folder = named().or_else(|| built(&file)).or_else(installed).unwrap_or_else(|| {
        panic!("{file} is not found: build it with `make lib`, install it with `make install` (and set PKG_CONFIG_PATH to its lib/pkgconfig), or set WY50_LIB_DIR to its folder")
    });
    let library = folder.join(file);
    assert!(library.is_file(), "{} is not there", library.display());
    println!("cargo:rerun-if-changed={}", library.display());
    println!("cargo:rustc-link-search=native={}", folder.display());
    println!("cargo:rustc-link-lib=static={NAME}");
}

fn named() -> Option<PathBuf> {
    env::var_os("WY50_LIB_DIR").map(PathBuf::from)
}

fn built(file: &str) -> Option<PathBuf> {
    let folder = Path::new(&env::var_os("CARGO_MANIFEST_DIR")?).join("../../target/staticlib");
    folder.join(file).is_file().then_some(folder)
}

fn installed() -> Option<PathBuf> {
    let said = Command::new("pkg-config").args(["--variable=libdir", NAME]).output().ok()?;
    let folder = String::from_utf8(said.stdout).ok()?;
    said.status.success().then(|| PathBuf::from(folder.trim_end()))
}
