//! Tells cargo the folder of `libsallowbingo.a`: the variable SALLOWBINGO_LIB_DIR, or else what pkg-config knows. The
//! archive has to be of the crate's version, since the structs have to be laid out alike.

use std::env;
use std::path::PathBuf;
use std::process::{Command, ExitCode};

const VARIABLE: &str = "SALLOWBINGO_LIB_DIR";
const ARCHIVE: &str = "libsallowbingo.a";

/// What pkg-config says of the installed package; none if it has no such package or is missing itself.
fn installed(question: &str) -> Option<String> {
    let output = Command::new("pkg-config").args([question, "sallowbingo"]).output().ok()?;
    let answer = String::from_utf8(output.stdout).ok()?.trim().to_string();
    (output.status.success() && !answer.is_empty()).then_some(answer)
}

/// The folder of the installed archive, or a sentence that says what to do.
fn installed_folder() -> Result<PathBuf, String> {
    let folder = installed("--variable=libdir").ok_or(format!(
        "{ARCHIVE} is not installed where pkg-config looks: run `make install PREFIX=..` in the repository of \
         Sallowbingo and set PKG_CONFIG_PATH to the pkgconfig folder it names, or set {VARIABLE} to the folder of \
         {ARCHIVE}."
    ))?;
    if let Some(place) = installed("--variable=pcfiledir") {
        println!("cargo::rerun-if-changed={place}/sallowbingo.pc");
    }
    match installed("--modversion") {
        Some(version) if version == env!("CARGO_PKG_VERSION") => Ok(PathBuf::from(folder)),
        version => Err(format!(
            "the archive that is installed in {folder} is of version {}, and this crate of {}: install both from one \
             repository.",
            version.unwrap_or_default(),
            env!("CARGO_PKG_VERSION")
        )),
    }
}

/// The folder of the archive, or a sentence that says what to do. The path is whole, since the linker starts elsewhere.
fn find() -> Result<PathBuf, String> {
    let named = env::var_os(VARIABLE).filter(|folder| !folder.is_empty()).map(PathBuf::from);
    let folder = named.map_or_else(installed_folder, Ok)?;
    match folder.canonicalize() {
        Ok(whole) if whole.join(ARCHIVE).is_file() => Ok(whole),
        _ => Err(format!("{} has no {ARCHIVE}: set {VARIABLE} to the whole path of its folder.", folder.display())),
    }
}

fn main() -> ExitCode {
    for name in [VARIABLE, "PKG_CONFIG_PATH", "PKG_CONFIG_LIBDIR"] {
        println!("cargo::rerun-if-env-changed={name}");
    }
    match find() {
        Ok(folder) => {
            println!("cargo::rerun-if-changed={}", folder.join(ARCHIVE).display());
            println!("cargo::rustc-link-search=native={}", folder.display());
            println!("cargo::rustc-link-lib=static=sallowbingo");
            ExitCode::SUCCESS
        }
        Err(sentence) => {
            eprintln!("{sentence}");
            ExitCode::FAILURE
        }
    }
}
