//! The build script of the members that use the oracle: passes on whether it has the Rust text, as the cfg `rust_text`.

fn main() {
    println!("cargo::rustc-check-cfg=cfg(rust_text)");
    if std::env::var_os("DEP_RUST_TEXT_PRESENT").is_some() {
        println!("cargo::rustc-cfg=rust_text");
    }
}
