//! Finds the proved library, the archive `libcapi.a`, and links it. The variable `ZHGARELLI_LIB` names the archive or its folder; where it
//! is not set the kit proves and builds the library, which takes some minutes the first time.

use std::env;
use std::fs;
use std::path::{Path, PathBuf};
use std::process::{exit, Command};

const VARIABLE: &str = "ZHGARELLI_LIB";
/// What the archive is called where it is built, and where it is installed.
const NAMES: [&str; 2] = ["libcapi.a", "libzhgarelli.a"];
const HELP: &str = "\
Set ZHGARELLI_LIB to the proved library: the file libcapi.a, or its folder. `tools/native-lib capi` builds it where the Rattle kit is,
and `tools/install PREFIX` puts it into PREFIX/lib as libzhgarelli.a. Where the program `rt` of the kit is on the PATH, and this crate
stands in its repository, the library is built by itself.";

fn main() {
    println!("cargo:rerun-if-changed=build.rs");
    println!("cargo:rerun-if-env-changed={VARIABLE}");
    let archive = match env::var_os(VARIABLE) {
        Some(named) => archive_at(Path::new(&named)),
        None => built(),
    };
    if let Err(wrong) = archive.and_then(|archive| link(&archive)) {
        eprintln!("zhgarelli: {wrong}\n{HELP}");
        exit(1);
    }
}

/// The archive that a path names: the file itself, or the one in that folder.
fn archive_at(path: &Path) -> Result<PathBuf, String> {
    if path.is_file() {
        return Ok(path.to_path_buf());
    }
    let found = NAMES.map(|name| path.join(name));
    let none = || {
        format!(
            "{VARIABLE} is {}, and there is no {} there.",
            path.display(),
            NAMES.join(" or ")
        )
    };
    found
        .into_iter()
        .find(|file| file.is_file())
        .ok_or_else(none)
}

/// The archive that the kit proves and builds in the repository that this crate stands in.
fn built() -> Result<PathBuf, String> {
    let folder = env::var("CARGO_MANIFEST_DIR").map_err(|wrong| wrong.to_string())?;
    let repository = Path::new(&folder).join("..");
    let tool = repository.join("tools/native-lib");
    let kit = Command::new("rt").arg("version").output();
    if !tool.is_file() || !kit.is_ok_and(|kit| kit.status.success()) {
        return Err(format!(
            "{VARIABLE} is not set, and the Rattle kit is not here to build the proved library."
        ));
    }
    watch(&repository);
    let made = Command::new(tool)
        .arg("capi")
        .output()
        .map_err(|wrong| format!("tools/native-lib: {wrong}"))?;
    if made.status.success() {
        archive_at(&repository.join("target/native"))
    } else {
        let lines = [made.stdout, made.stderr].concat();
        Err(format!(
            "tools/native-lib capi failed:\n{}",
            String::from_utf8_lossy(&lines)
        ))
    }
}

/// Has cargo look at the sources again, and not at what the kit makes of them, which lies beside them.
fn watch(repository: &Path) {
    let crates = fs::read_dir(repository.join("crates"));
    let parts = crates
        .into_iter()
        .flatten()
        .flatten()
        .flat_map(|folder| ["src", "specs", "proofs"].map(|part| folder.path().join(part)));
    let list = repository.join("crates.txt");
    for path in parts.filter(|part| part.is_dir()).chain([list]) {
        println!("cargo:rerun-if-changed={}", path.display());
    }
}

/// Links a copy of the archive, so that its name and the other files of its folder make no difference.
fn link(archive: &Path) -> Result<(), String> {
    let out = env::var("OUT_DIR").map_err(|wrong| wrong.to_string())?;
    fs::copy(archive, Path::new(&out).join(NAMES[0]))
        .map_err(|wrong| format!("{}: {wrong}", archive.display()))?;
    println!("cargo:rerun-if-changed={}", archive.display());
    println!("cargo:rustc-link-search=native={out}");
    println!("cargo:rustc-link-lib=static=capi");
    Ok(())
}
