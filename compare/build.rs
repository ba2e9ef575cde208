//! Builds the peer in C, and links the two proved libraries where the feature
//! `proved` asks for them.

use std::path::{Path, PathBuf};
use std::process::Command;
use std::{env, fs};

fn main() {
    let crate_folder = PathBuf::from(env::var("CARGO_MANIFEST_DIR").expect("cargo names the folder"));
    let out = PathBuf::from(env::var("OUT_DIR").expect("cargo names the folder of what is built"));
    build_peer(&crate_folder, &out);
    link_proved(&crate_folder);
}

/// The peer as `libpeer.a`, for the same processors as the proved library.
fn build_peer(crate_folder: &Path, out: &Path) {
    let folder = crate_folder.join("peer");
    let include = crate_folder.join("../include");
    println!("cargo:rerun-if-changed={}", folder.display());
    println!("cargo:rerun-if-changed={}", include.display());
    println!("cargo:rerun-if-env-changed=CC");
    let compiler = env::var("CC").unwrap_or_else(|_| usual_compiler().into());
    let mut archiver = Command::new("ar");
    archiver.arg("rcs").arg(out.join("libpeer.a"));
    for file in c_files(&folder) {
        let object = out.join(file.with_extension("o").file_name().expect("a file has a name"));
        let flags = ["-std=c11", "-O3", "-fPIE", "-Wall", "-Wextra", "-pedantic", "-c"];
        let mut compile = Command::new(&compiler);
        run(compile.args(flags).arg("-I").arg(&include).arg(&file).arg("-o").arg(&object));
        archiver.arg(&object);
    }
    run(&mut archiver);
    println!("cargo:rustc-link-search=native={}", out.display());
    println!("cargo:rustc-link-lib=static=peer");
}

/// Clang where there is one, since the proved library is LLVM's too, and else the
/// system's compiler.
fn usual_compiler() -> &'static str {
    let clang = Command::new("clang").arg("--version").output();
    if clang.is_ok_and(|told| told.status.success()) {
        "clang"
    } else {
        "cc"
    }
}

fn c_files(folder: &Path) -> Vec<PathBuf> {
    let entries = fs::read_dir(folder).expect("the peer has a folder");
    let files = entries.map(|entry| entry.expect("the folder can be read").path());
    let mut files: Vec<PathBuf> =
        files.filter(|file| file.extension().is_some_and(|end| end == "c")).collect();
    files.sort();
    files
}

fn run(command: &mut Command) {
    let status = command.status().unwrap_or_else(|error| panic!("{command:?}: {error}"));
    assert!(status.success(), "{command:?} failed");
}

/// The library may have any name, and that of the tools stands beside it.
fn link_proved(crate_folder: &Path) {
    println!("cargo:rerun-if-env-changed=PROVED_LIBRARY");
    if env::var_os("CARGO_FEATURE_PROVED").is_none() {
        return;
    }
    let beside = crate_folder.join("../target/staticlib/libmizzencord.a");
    let library = env::var_os("PROVED_LIBRARY").map_or(beside, PathBuf::from);
    let folder = library.parent().expect("a library stands in a folder");
    let name = library.file_name().expect("a library has a name").to_str().expect("in UTF-8");
    println!("cargo:rustc-link-search=native={}", folder.display());
    for name in [name, "libmizzencord_tools.a"] {
        println!("cargo:rerun-if-changed={}", folder.join(name).display());
        println!("cargo:rustc-link-lib=static:+verbatim={name}");
    }
}
