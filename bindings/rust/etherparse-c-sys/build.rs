//! Finds `libetherparse_c.a` and links it. Searches in this order:
//!
//! 1. `ETHERPARSE_C_DIR`: a folder with the archive, or with the archive in `lib`, as an unpacked release has it;
//! 2. the folder that `pkg-config etherparse` reports, if it is of this minor version and not an older patch;
//! 3. `native/ARCH-linux` of this package, where a release puts a copy;
//! 4. `crates/etherparse_c/out` of the repository, if this package is in it.
//!
//! The archive of a release contains its allocation functions (`etherparse_heap.c`). For an archive without them they
//! are compiled here by `CC`.
use std::path::{Path, PathBuf};
use std::process::{exit, Command};
use std::{env, fs};

const ARCHIVE: &str = "libetherparse_c.a";

fn main() {
    if let Err(message) = link() {
        eprintln!("etherparse-c-sys: {message}");
        exit(1);
    }
}

fn link() -> Result<(), String> {
    let package = PathBuf::from(needed("CARGO_MANIFEST_DIR")?);
    let (arch, system) = (needed("CARGO_CFG_TARGET_ARCH")?, needed("CARGO_CFG_TARGET_OS")?);
    let target = needed("TARGET")?;
    let width = needed("CARGO_CFG_TARGET_POINTER_WIDTH")?;
    if system != "linux" || width != "64" || !["x86_64", "aarch64"].contains(&arch.as_str()) {
        return Err(format!(
            "there is no {ARCHIVE} for {target}: build for x86_64-unknown-linux-gnu (cargo build --target ..)"
        ));
    }
    let folder = folder(&package, &arch, &target)?;
    let archive = folder.join(ARCHIVE);
    for name in ["ETHERPARSE_C_DIR", "PKG_CONFIG", "PKG_CONFIG_PATH", "CC", "AR"] {
        println!("cargo:rerun-if-env-changed={name}");
    }
    println!("cargo:rerun-if-changed={}", archive.display());
    println!("cargo:rustc-link-search=native={}", folder.display());
    println!("cargo:rustc-link-lib=static=etherparse_c");
    println!("cargo:libdir={}", folder.display());
    let contents = fs::read(&archive).map_err(|error| format!("{}: {error}", archive.display()))?;
    if !defines(&contents, b"rattle_alloc") {
        compile_memory(&package)?;
    }
    Ok(())
}

fn needed(name: &str) -> Result<String, String> {
    env::var(name).map_err(|_| format!("no {name} is set: run this by cargo"))
}

/// Returns the folder with the archive.
fn folder(package: &Path, arch: &str, target: &str) -> Result<PathBuf, String> {
    let has_archive = |folder: &PathBuf| folder.join(ARCHIVE).is_file();
    if let Some(given) = env::var_os("ETHERPARSE_C_DIR") {
        let given = PathBuf::from(given);
        if given.is_relative() {
            return Err(format!("ETHERPARSE_C_DIR is {}: let it be a whole path, from / on", given.display()));
        }
        let places = [given.clone(), given.join("lib")];
        return places.into_iter().find(has_archive).ok_or(format!(
            "no {ARCHIVE} in {0} or {0}/lib, which ETHERPARSE_C_DIR names: let it name an unpacked release",
            given.display()
        ));
    }
    let own = package.join(format!("native/{arch}-linux"));
    let repository = package.join("../../../crates/etherparse_c/out");
    // an installed archive is for this machine only
    let installed = if env::var("HOST").as_deref() == Ok(target) { installed() } else { None };
    let mut places = installed.into_iter().chain([own]).chain((arch == "x86_64").then_some(repository));
    places.find(has_archive).ok_or(format!(
        "no {ARCHIVE} for {target}: set ETHERPARSE_C_DIR to an unpacked etherparse-c-VERSION-{arch}-linux.tar.gz"
    ))
}

/// Returns the folder that pkg-config reports.
fn installed() -> Option<PathBuf> {
    let program = env::var("PKG_CONFIG").unwrap_or_else(|_| "pkg-config".into());
    let (major, minor) = (env!("CARGO_PKG_VERSION_MAJOR"), env!("CARGO_PKG_VERSION_MINOR").parse::<u32>().ok()?);
    let wanted = [concat!("etherparse >= ", env!("CARGO_PKG_VERSION")), &format!("etherparse < {major}.{}", minor + 1)];
    let fits = Command::new(&program).arg("--exists").args(wanted).status().ok()?;
    let output = Command::new(&program).args(["--variable=libdir", "etherparse"]).output().ok()?;
    let folder = String::from_utf8(output.stdout).ok()?;
    (fits.success() && output.status.success()).then(|| PathBuf::from(folder.trim_end()))
}

/// Returns whether the symbol table of an archive, its first member, has this name.
fn defines(archive: &[u8], name: &[u8]) -> bool {
    let list = || {
        let header = archive.strip_prefix(b"!<arch>\n")?;
        let len: usize = std::str::from_utf8(header.get(48..58)?).ok()?.trim_end().parse().ok()?;
        header.starts_with(b"/ ").then(|| header.get(60..60 + len))?
    };
    list().is_some_and(|names| names.split(|byte| *byte == 0).any(|other| other == name))
}

fn compile_memory(package: &Path) -> Result<(), String> {
    // a release has a copy in the package; the repository has it in the folder of the header
    let places = [package.join("etherparse_heap.c"), package.join("../../c/etherparse_heap.c")];
    let source = places.into_iter().find(|place| place.is_file());
    let source = source.ok_or(format!("{ARCHIVE} has no memory in it: use the archive of a release"))?;
    let out = PathBuf::from(needed("OUT_DIR")?);
    println!("cargo:rerun-if-changed={}", source.display());
    let (object, library) = (out.join("etherparse_heap.o"), out.join("libetherparse_heap.a"));
    run("CC", "cc", &["-O2", "-fPIC", "-c"], &[&source, Path::new("-o"), &object])?;
    run("AR", "ar", &["crs"], &[&library, &object])?;
    println!("cargo:rustc-link-search=native={}", out.display());
    println!("cargo:rustc-link-lib=static=etherparse_heap");
    Ok(())
}

/// Runs the program, and its first arguments, that a variable names, or else the usual program.
fn run(variable: &str, usual: &str, words: &[&str], paths: &[&Path]) -> Result<(), String> {
    let named = env::var(variable).unwrap_or_default();
    let mut named = named.split_whitespace();
    let program = named.next().unwrap_or(usual);
    let status = Command::new(program).args(named).args(words).args(paths).status();
    match status {
        Ok(status) if status.success() => Ok(()),
        Ok(status) => Err(format!("{program} failed ({status}) on the memory of {ARCHIVE}, which has none in it")),
        Err(error) => Err(format!(
            "{program} does not start ({error}): set {variable}, or use the archive of a release, which needs none"
        )),
    }
}
