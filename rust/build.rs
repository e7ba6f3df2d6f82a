// SPDX-License-Identifier: MIT OR Apache-2.0
//! Finds the archive of the library, libkat.a, and links it:
//!   1. in the folder that the variable KAT_LIB_DIR names, as the `lib` of release/install --library;
//!   2. in the repository, where it was built (crates/kat_c/out) or released (release/, which gzip unpacks).

use std::env;
use std::fs::{self, File};
use std::path::{Path, PathBuf};
use std::process::{Command, Stdio};

fn main() {
    println!("cargo:rerun-if-env-changed=KAT_LIB_DIR");
    let folder = match env::var_os("KAT_LIB_DIR") {
        Some(named) => PathBuf::from(named),
        None => of_repository(),
    };
    let archive = folder.join("libkat.a");
    if !archive.is_file() {
        fail(&format!("there is no {}: KAT_LIB_DIR names the folder of libkat.a", archive.display()));
    }
    println!("cargo:rerun-if-changed={}", archive.display());
    println!("cargo:rustc-link-search=native={}", folder.display());
    println!("cargo:rustc-link-lib=static=kat");
}

fn fail(why: &str) -> ! {
    eprintln!("kat: {why}");
    std::process::exit(1);
}

fn of_repository() -> PathBuf {
    let top = Path::new(&env::var_os("CARGO_MANIFEST_DIR").expect("cargo names the folder")).join("..");
    let built = top.join("crates/kat_c/out");
    if built.join("libkat.a").is_file() {
        return built;
    }
    let packed = top.join("release/libkat-x86_64-linux.a.gz");
    println!("cargo:rerun-if-changed={}", packed.display());
    let folder = PathBuf::from(env::var_os("OUT_DIR").expect("cargo names the folder"));
    let archive = folder.join("libkat.a");
    if packed.is_file() {
        unpack(&packed, &archive).unwrap_or_else(|why| fail(&format!("{} cannot be unpacked: {why}", packed.display())));
    }
    folder
}

fn unpack(packed: &Path, archive: &Path) -> std::io::Result<()> {
    let from = File::open(packed)?;
    let to = Stdio::from(File::create(archive)?);
    let status = Command::new("gzip").arg("-dc").stdin(from).stdout(to).status()?;
    if !status.success() {
        fs::remove_file(archive)?;
        return Err(std::io::Error::new(std::io::ErrorKind::InvalidData, "gzip failed"));
    }
    Ok(())
}
