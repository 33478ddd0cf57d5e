//! Finds the given Rust text and writes the `#[path]` lines that bring its eight files in, read where they stand; and beside
//! hulls.rs a copy of it in which each candidate carries its place. Where a file is missing, nothing is written and the cfg
//! `rust_text` stays off.

use std::path::{Path, PathBuf};
use std::{env, fs};

/// The variable that names the text's folder.
const VARIABLE: &str = "FROZENHAMES_RUST_TEXT";

/// The text's folder, from this crate's own, where the variable is not set.
const DEFAULT: &str = "../../../shared/docs/src";

/// The text's modules, by the module that they stand in: the file written for it, its folder in the text, its modules.
const MODULES: [(&str, &str, &[&str]); 3] = [
    ("root.rs", "src", &["constants"]),
    ("hull.rs", "src/hull", &["types"]),
    (
        "manifold.rs",
        "src/manifold",
        &[
            "types",
            "simd_scalar",
            "clip",
            "sat",
            "separating_axis",
            "hulls",
        ],
    ),
];

/// Above each module of the text: its functions for shapes that are left out have no caller, and it names a feature
/// that this crate does not have.
const ALLOW: &str = "#[allow(dead_code, unexpected_cfgs)]";

/// The line of hulls.rs after which a candidate is whole: `pt` is the candidate that comes of corner `i`.
const CANDIDATE_MADE: &str = "        pt.pair = clip_point.pair;\n";

/// What the copy has behind it. The text leaves this field of a candidate at 0, and copies it with the point that is picked.
const PLACE_NOTED: &str = "        pt.triangle_index = i;\n";

/// The copy's name beside `hulls`, in the same module.
const COPY: &str = "hulls_placed";

fn main() {
    println!("cargo::rustc-check-cfg=cfg(rust_text)");
    println!("cargo::rerun-if-env-changed={VARIABLE}");

    let text = folder();
    let mut complete = true;
    for (_, part, names) in MODULES {
        for name in names {
            let file = file(&text, part, name);
            println!("cargo::rerun-if-changed={}", file.display());
            complete &= file.is_file();
        }
    }
    if !complete {
        return;
    }

    let out = PathBuf::from(env::var_os("OUT_DIR").expect("cargo sets OUT_DIR"));
    for (written, part, names) in MODULES {
        let mut lines: String = (names.iter())
            .map(|name| module(&file(&text, part, name), name))
            .collect();
        if names.contains(&"hulls") {
            let copy = out.join(COPY).with_extension("rs");
            let noted = with_places(&file(&text, part, "hulls"));
            fs::write(&copy, noted).expect("OUT_DIR takes the copy");
            lines += &module(&copy, COPY);
        }
        fs::write(out.join(written), lines).expect("OUT_DIR takes the module lines");
    }
    println!("cargo::rustc-cfg=rust_text");
    println!("cargo::metadata=present=1");
    println!("cargo::rustc-env=ORACLE_RUST_TEXT={}", text.display());
}

/// The lines that bring a file in.
fn module(path: &Path, name: &str) -> String {
    format!("#[path = {path:?}]\n{ALLOW}\npub mod {name};\n")
}

/// hulls.rs with the place of each candidate noted.
fn with_places(hulls: &Path) -> String {
    let text = fs::read_to_string(hulls).expect("the text can be read");
    let found = text.matches(CANDIDATE_MADE).count();
    assert!(
        found == 1,
        "the places of candidates cannot be noted: {} has the line '{}' {found} times, not once",
        hulls.display(),
        CANDIDATE_MADE.trim()
    );
    text.replace(CANDIDATE_MADE, &format!("{CANDIDATE_MADE}{PLACE_NOTED}"))
}

/// The text's folder, absolute; without links and `..` where it is there.
fn folder() -> PathBuf {
    let own = PathBuf::from(env::var_os("CARGO_MANIFEST_DIR").expect("cargo sets its folder"));
    let named = env::var_os(VARIABLE).unwrap_or_else(|| DEFAULT.into());
    let joined = own.join(named);
    joined.canonicalize().unwrap_or(joined)
}

fn file(text: &Path, part: &str, name: &str) -> PathBuf {
    text.join(part).join(name).with_extension("rs")
}
