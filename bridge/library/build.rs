//! Finds the static library of the proved front end, and links it.
//!
//! Nothing is linked where documentation is made or code is only checked, so a missing library ends no such run. A
//! build script isn't told which run it is part of: it tells why there is no library by a configuration and a
//! variable, and src/unlinked.rs turns that into an error of any build.
#![forbid(unsafe_code)]

use std::env;
use std::path::{Path, PathBuf};
use std::process;

/// The targets that have a library (docs/PLATFORMS.md).
const TARGETS: [&str; 8] = [
    "x86_64-unknown-linux-gnu",
    "x86_64-unknown-linux-musl",
    "aarch64-unknown-linux-gnu",
    "aarch64-unknown-linux-musl",
    "x86_64-pc-windows-gnu",
    "x86_64-pc-windows-msvc",
    "x86_64-apple-darwin",
    "aarch64-apple-darwin",
];

fn main() {
    println!("cargo:rerun-if-env-changed=PEST_META_LIB");
    println!("cargo:rustc-check-cfg=cfg(pest_meta_unlinked)");
    match library() {
        Ok(folder) => {
            println!("cargo:rustc-link-search=native={}", folder.display());
            println!("cargo:rustc-link-lib=static=pest_meta_c");
        }
        Err(why) => {
            println!("cargo:rustc-cfg=pest_meta_unlinked");
            println!("cargo:rustc-env=PEST_META_UNLINKED={why}");
            if env::var_os("DOCS_RS").is_none() {
                println!("cargo:warning={why}");
            }
        }
    }
}

/// The folder that has the library for the target, or why there is none.
fn library() -> Result<PathBuf, String> {
    let target = variable("TARGET");
    if !TARGETS.contains(&&target[..]) {
        let others = TARGETS.join(", ");
        return Err(format!("pest_meta's proved library is for {others}, and there is none for {target}"));
    }
    if let Some(folder) = env::var_os("PEST_META_LIB") {
        let folder = PathBuf::from(folder);
        // Whoever names a folder wants to hear of it at once, whatever is built.
        return Ok(find(&folder, &target).unwrap_or_else(|| {
            let archive = archive(&target);
            eprintln!("error: PEST_META_LIB names {}, which has no {archive} for {target}", folder.display());
            process::exit(1);
        }));
    }
    let package = PathBuf::from(variable("CARGO_MANIFEST_DIR"));
    let of_package = packaged(&target).into_iter();
    let mut folders = of_package.chain([package.join("lib"), package.with_file_name("lib")]);
    folders.find_map(|folder| find(&folder, &target)).ok_or_else(|| missing(&package, &target))
}

/// The folder of the package that has the library of a target alone, if this one depends on it. That package's build
/// script tells of it.
fn packaged(target: &str) -> Option<PathBuf> {
    let name = target.replace('-', "_").to_uppercase();
    env::var_os(format!("DEP_KINGOREWA_LIBRARY_{name}_FOLDER")).map(PathBuf::from)
}

/// The library of a target, below a folder or in it: a folder that has that of one target has it for x86-64 Linux.
fn find(folder: &Path, target: &str) -> Option<PathBuf> {
    let below = folder.join(target);
    if has_archive(&below, target) {
        return Some(below);
    }
    let is_linux = target.starts_with("x86_64-unknown-linux");
    let is_of_target = folder.file_name().is_some_and(|name| name == target);
    ((is_linux || is_of_target) && has_archive(folder, target)).then(|| folder.to_path_buf())
}

/// Whether a folder has the library. It is looked for again once there is one, or another.
fn has_archive(folder: &Path, target: &str) -> bool {
    let file = folder.join(archive(target));
    println!("cargo:rerun-if-changed={}", file.display());
    file.is_file()
}

/// The file of the proved library, with what it takes of the C library.
fn archive(target: &str) -> &'static str {
    if target.ends_with("-msvc") {
        "pest_meta_c.lib"
    } else {
        "libpest_meta_c.a"
    }
}

/// What to do where no library is found.
fn missing(package: &Path, target: &str) -> String {
    format!(
        "pest_meta's proved library, {}, is neither in {} nor beside that package, for {target}: `bridge/build` in the \
         repository proves and builds it, and `export PEST_META_LIB=FOLDER` names the folder of a release that has it",
        archive(target),
        package.join("lib").display()
    )
}

/// A variable that cargo sets for build scripts.
fn variable(name: &str) -> String {
    env::var(name).unwrap_or_else(|_| panic!("cargo sets {name}"))
}
