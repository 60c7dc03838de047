//! Finds the verified static library, or has it made, and links it.

use std::env;
use std::path::{Path, PathBuf};
use std::process::Command;

const ARCHIVE: &str = "libtegmeadow.a";

fn main() {
    println!("cargo:rerun-if-env-changed=TEGMEADOW_LIB");
    let folder = match archive_folder() {
        Ok(folder) => folder,
        Err(why) => {
            eprintln!("{why}");
            std::process::exit(1);
        }
    };
    println!("cargo:rerun-if-changed={}", folder.join(ARCHIVE).display());
    println!("cargo:rustc-link-search=native={}", folder.display());
    println!("cargo:rustc-link-lib=static=tegmeadow");
    // the tests compare the archive's symbols with the declarations
    println!(
        "cargo:rustc-env=TEGMEADOW_ARCHIVE={}",
        folder.join(ARCHIVE).display()
    );
}

/// The folder of TEGMEADOW_LIB, or that of the repository, filled if need be.
fn archive_folder() -> Result<PathBuf, String> {
    if let Some(folder) = env::var_os("TEGMEADOW_LIB") {
        let folder = PathBuf::from(folder);
        return match folder.join(ARCHIVE).is_file() {
            true => Ok(folder),
            false => Err(format!(
                "TEGMEADOW_LIB: no {ARCHIVE} in {}",
                folder.display()
            )),
        };
    }
    let here = env::var_os("CARGO_MANIFEST_DIR").ok_or("CARGO_MANIFEST_DIR is not set")?;
    let root = Path::new(&here)
        .join("../..")
        .canonicalize()
        .map_err(|e| e.to_string())?;
    let library = root.join("crates/tegmeadow");
    let folder = library.join("out");
    if !folder.join(ARCHIVE).is_file() {
        make(&library)?;
    }
    Ok(folder)
}

/// Proves the library and writes the archive.
fn make(library: &Path) -> Result<(), String> {
    let run = Command::new("rt").arg("lib").current_dir(library).status();
    match run {
        Ok(status) if status.success() => Ok(()),
        Ok(status) => Err(format!("rt lib in {}: {status}", library.display())),
        Err(e) => Err(format!("rt lib: {e} (is the Rattle toolchain there?)")),
    }
}
