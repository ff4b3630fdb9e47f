//! Compiles floor.c and links libvterm.
use std::{env, path::PathBuf, process::Command};

fn main() {
    println!("cargo:rerun-if-changed=floor.c");
    let out = PathBuf::from(env::var_os("OUT_DIR").unwrap());
    let object = out.join("floor.o");
    run(Command::new("cc").args(["-std=c99", "-Wall", "-Wextra", "-Werror", "-O3", "-c", "floor.c", "-o"]).arg(&object));
    run(Command::new("ar").arg("rcs").arg(out.join("libfloor.a")).arg(&object));
    println!("cargo:rustc-link-search=native={}", out.display());
    println!("cargo:rustc-link-lib=static=floor");
    println!("cargo:rustc-link-lib=vterm");
}

fn run(command: &mut Command) {
    assert!(command.status().expect("the command starts").success(), "{command:?} failed");
}
