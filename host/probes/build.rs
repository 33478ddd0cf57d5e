//! Links the library that `tools/build.sh probes` writes.

use std::env;
use std::path::PathBuf;

fn main() {
    let own = PathBuf::from(env::var_os("CARGO_MANIFEST_DIR").expect("cargo sets its folder"));
    let folder = own.join("../../target/staticlib");
    println!(
        "cargo::rerun-if-changed={}",
        folder.join("libprobes.a").display()
    );
    println!("cargo::rustc-link-search=native={}", folder.display());
    println!("cargo::rustc-link-lib=static=probes");
}
