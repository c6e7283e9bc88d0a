//! Finds the library that the crate calls, the first of these:
//!
//! 1. `libcc2.a` in a folder of the variable `CC2_LIB`, with `:` between two; or `libcc2_c.a` there and `liblibc_c.a` there or in the kit
//! 2. `crates/cc2_c/out/libcc2_c.a` of this repository with the kit's `liblibc_c.a`
//! 3. `dist/x86_64-unknown-linux-gnu/libcc2.a` of this repository
//!
//! `cargo check`, `cargo doc` and editors need none. Where there is none `cargo build` ends with an error of rustc that says so.
use std::env;
use std::path::{Path, PathBuf};

// The kit's folder of archives.
const KIT: &str = "/opt/rattle/c";
// What rustc says that it can't find, where there is no library.
const MISSING: &str = "cc2 (not built; run 'rt lib' in crates/cc2_c, or set CC2_LIB to the folder of libcc2.a)";
const NO_TARGET: &str = "cc2 (built for Linux on x86-64 alone)";

fn main() {
    println!("cargo:rerun-if-changed=build.rs");
    println!("cargo:rerun-if-env-changed=CC2_LIB");
    let target = ["CARGO_CFG_TARGET_ARCH", "CARGO_CFG_TARGET_OS"].map(|name| env::var(name).unwrap_or_default());
    let found = match env::var_os("CC2_LIB") {
        Some(folders) => in_folders(env::split_paths(&folders).collect()),
        None => in_repository(),
    };
    match found {
        _ if target != ["x86_64", "linux"] => println!("cargo:rustc-link-lib=static={NO_TARGET}"),
        Some(files) => files.iter().for_each(|file| link(file)),
        None => println!("cargo:rustc-link-lib=static={MISSING}"),
    }
}

// The archives of the first folder that has the library.
fn in_folders(folders: Vec<PathBuf>) -> Option<Vec<PathBuf>> {
    let find = |name: &str| folders.iter().map(|folder| folder.join(name)).find(|file| file.is_file());
    find("libcc2.a").map(|whole| vec![whole]).or_else(|| {
        let heap = find("liblibc_c.a").or_else(|| file_in(KIT, "liblibc_c.a"));
        Some(vec![find("libcc2_c.a")?, heap?])
    })
}

// The archives of this repository: those that are built, else those in dist/.
fn in_repository() -> Option<Vec<PathBuf>> {
    let crate_folder = env::var("CARGO_MANIFEST_DIR").ok()?;
    let top = Path::new(&crate_folder).ancestors().nth(2)?;
    let built = top.join("crates/cc2_c");
    // The folder out/ is created with the library; the nearest folder that exists changes with it.
    if let Some(there) = [built.join("out"), built.clone()].iter().find(|folder| folder.is_dir()) {
        println!("cargo:rerun-if-changed={}", there.display());
    }
    let built = built.join("out/libcc2_c.a");
    match file_in(KIT, "liblibc_c.a") {
        Some(heap) if built.is_file() => Some(vec![built, heap]),
        _ => {
            let dist = top.join("dist");
            if dist.is_dir() {
                println!("cargo:rerun-if-changed={}", dist.display());
            }
            file_in(dist.join("x86_64-unknown-linux-gnu"), "libcc2.a").map(|whole| vec![whole])
        }
    }
}

fn file_in<P: AsRef<Path>>(folder: P, name: &str) -> Option<PathBuf> {
    Some(folder.as_ref().join(name)).filter(|file| file.is_file())
}

// Links an archive libNAME.a.
fn link(file: &Path) {
    let name = file.file_stem().and_then(|stem| stem.to_str()).and_then(|stem| stem.strip_prefix("lib"));
    if let (Some(folder), Some(name)) = (file.parent(), name) {
        println!("cargo:rerun-if-changed={}", file.display());
        println!("cargo:rustc-link-search=native={}", folder.display());
        println!("cargo:rustc-link-lib=static={name}");
    }
}
