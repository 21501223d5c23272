//! Finds libzopredil.a and zopredil.h, and hands the header's version on as ZOPREDIL_VERSION. The folder of the archive is,
//! in this order: the one that the variable ZOPREDIL_LIB_DIR names; target/host of the repository that this crate stands
//! in, where tools/build-archive puts it; the one that pkg-config knows of an installed zopredil.

use std::path::{Path, PathBuf};
use std::process::{self, Command};
use std::{env, fs};

/// Ends the build with a reason.
fn stop(why: &str) -> ! {
    eprintln!("{why}");
    eprintln!(
        "Run tools/build-archive in the repository, which proves the library and writes the archive to target/host;"
    );
    eprintln!(
        "or tools/install PREFIX, and have pkg-config look in PREFIX/lib/pkgconfig; or set ZOPREDIL_LIB_DIR to the"
    );
    eprintln!("folder that holds libzopredil.a.");
    process::exit(1);
}

/// A folder of the installed library.
fn installed(variable: &str) -> PathBuf {
    println!("cargo:rerun-if-env-changed=PKG_CONFIG_PATH");
    let asked = Command::new("pkg-config").arg(format!("--variable={variable}")).arg("zopredil").output();
    match asked {
        Ok(said) if said.status.success() => PathBuf::from(String::from_utf8_lossy(&said.stdout).trim_end()),
        _ => stop("This crate stands in no repository, and pkg-config knows of no zopredil."),
    }
}

/// The version that a header defines.
fn version(header: &Path) -> String {
    let text = fs::read_to_string(header).unwrap_or_else(|why| stop(&format!("{}: {why}", header.display())));
    let found = text.lines().find_map(|line| line.strip_prefix("#define ZOPREDIL_VERSION \"")?.strip_suffix('"'));
    found.map_or_else(|| stop(&format!("{} defines no version.", header.display())), str::to_string)
}

fn main() {
    println!("cargo:rerun-if-env-changed=ZOPREDIL_LIB_DIR");
    println!("cargo:rerun-if-changed=build.rs");
    let Some(here) = env::var_os("CARGO_MANIFEST_DIR") else { stop("cargo names no folder of the crate.") };
    let root = PathBuf::from(here).join("../..");
    let repository = root.join("crates.txt").is_file();
    let folder = match env::var_os("ZOPREDIL_LIB_DIR") {
        Some(folder) => PathBuf::from(folder),
        None if repository => root.join("target/host"),
        None => installed("libdir"),
    };
    let header = if repository { root.join("include") } else { installed("includedir") }.join("zopredil.h");
    println!("cargo:rerun-if-changed={}", header.display());
    println!("cargo:rustc-env=ZOPREDIL_VERSION={}", version(&header));
    let archive = folder.join("libzopredil.a");
    println!("cargo:rerun-if-changed={}", archive.display());
    if !archive.is_file() {
        stop(&format!("There is no {}.", archive.display()));
    }
    println!("cargo:rustc-link-search=native={}", folder.display());
    println!("cargo:rustc-link-lib=static=zopredil");
}
