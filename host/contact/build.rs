//! Links the library that `tools/build.sh library` writes. Where it cannot be linked, the cause stands in a warning, and
//! again where something is built: the crate can then be checked and documented all the same.

use std::env;
use std::path::PathBuf;

/// The folder that has the library, where it is not the repository's own.
const FOLDER: &str = "CONTACT_LIBRARY_DIR";
const LIBRARY: &str = "libcontactlib.a";

fn main() {
    println!("cargo::rustc-check-cfg=cfg(without_library)");
    println!("cargo::rerun-if-env-changed={FOLDER}");
    match library_folder() {
        Ok(folder) => {
            println!("cargo::rustc-link-search=native={}", folder.display());
            println!("cargo::rustc-link-lib=static=contactlib");
        }
        Err(cause) => {
            println!("cargo::warning={cause}");
            println!("cargo::rustc-cfg=without_library");
            println!("cargo::rustc-env=CONTACT_WITHOUT_LIBRARY={cause}");
        }
    }
}

/// Where the library lies; or in one sentence why it cannot be linked, and the command that helps.
fn library_folder() -> Result<PathBuf, String> {
    let target = [
        variable("CARGO_CFG_TARGET_ARCH"),
        variable("CARGO_CFG_TARGET_OS"),
    ];
    if target != ["x86_64", "linux"] {
        return Err(format!(
            "the proved library is for x86-64 Linux and this build is for {}: build with `cargo build --target \
             x86_64-unknown-linux-gnu`, or run the program, which an emulator runs anywhere (`./run FILE`)",
            target.join(" "),
        ));
    }
    let named = env::var_os(FOLDER).filter(|folder| !folder.is_empty());
    let own = PathBuf::from(variable("CARGO_MANIFEST_DIR")).join("../../target/staticlib");
    let folder = named.as_ref().map_or(own, PathBuf::from);
    let library = folder.join(LIBRARY);
    println!("cargo::rerun-if-changed={}", library.display());
    if library.is_file() {
        return Ok(folder);
    }
    Err(match named {
        Some(_) => format!(
            "there is no {LIBRARY} in {}, which {FOLDER} names: run `./install PREFIX` in the repository and set {FOLDER} to \
             PREFIX/lib",
            folder.display(),
        ),
        None => format!(
            "there is no {LIBRARY} in {}: run `tools/build.sh library` in the repository, or set {FOLDER} to the folder \
             that has it",
            folder.display(),
        ),
    })
}

fn variable(name: &str) -> String {
    env::var(name).unwrap_or_else(|_| panic!("cargo sets {name}"))
}
