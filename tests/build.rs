//! Links what the features ask for: `proved` libprobe.a and `library` libvtoc.a, which `tools/build
//! probe` and `tools/build vtoc` make; `floor` floor.c, which is compiled here.

use std::env::var;
use std::path::{Path, PathBuf};
use std::process::Command;

fn main() {
    println!("cargo:rerun-if-changed=build.rs");
    println!("cargo:rerun-if-env-changed=VTOC_LIBRARY");
    let here = var("CARGO_MANIFEST_DIR").expect("cargo sets it");
    let made = Path::new(&here).join("../target/staticlib");
    if var("CARGO_FEATURE_PROVED").is_ok() {
        link(&made, "probe");
    }
    if var("CARGO_FEATURE_LIBRARY").is_ok() {
        link(&var("VTOC_LIBRARY").map_or(made, PathBuf::from), "vtoc");
    }
    if var("CARGO_FEATURE_FLOOR").is_ok() {
        let directory = PathBuf::from(var("OUT_DIR").expect("cargo sets it"));
        compile(&Path::new(&here).join("floor.c"), &directory, "floor");
        link_from(&directory, "floor");
    }
}

/// Makes an archive of one C file.
fn compile(source: &Path, directory: &Path, name: &str) {
    println!("cargo:rerun-if-changed={}", source.display());
    let (object, archive) =
        (directory.join(format!("{name}.o")), directory.join(format!("lib{name}.a")));
    run(Command::new("cc").args(["-std=c99", "-O3", "-c"]).arg(source).arg("-o").arg(&object));
    run(Command::new("ar").arg("rcs").arg(&archive).arg(&object));
}

fn run(command: &mut Command) {
    let status = command.status();
    assert!(status.as_ref().is_ok_and(|s| s.success()), "{command:?}: {status:?}");
}

fn link(directory: &Path, name: &str) {
    let archive = directory.join(format!("lib{name}.a"));
    assert!(archive.exists(), "{} is missing: run `tools/build {name}`", archive.display());
    println!("cargo:rerun-if-changed={}", archive.display());
    link_from(directory, name);
}

fn link_from(directory: &Path, name: &str) {
    println!("cargo:rustc-link-search=native={}", directory.display());
    println!("cargo:rustc-link-lib=static={name}");
}
