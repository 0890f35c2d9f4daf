//! Tells where `libprotolink.a` is: in the folder that `PROTOLINK_LIB_DIR` names, else in `lib/`. Where
//! it is not there, that is warned of: `cargo check` and `cargo doc` need none, and what is linked
//! fails without it.

use std::env;
use std::path::PathBuf;

const TARGET: &str = "x86_64-unknown-linux-gnu";

fn main() {
    println!("cargo:rerun-if-env-changed=PROTOLINK_LIB_DIR");
    let here = PathBuf::from(env::var_os("CARGO_MANIFEST_DIR").expect("cargo sets it"));
    let folder = match env::var_os("PROTOLINK_LIB_DIR") {
        Some(folder) => PathBuf::from(folder),
        None => here.join("lib"),
    };
    let archive = folder.join("libprotolink.a");
    println!("cargo:rerun-if-changed={}", archive.display());
    let target = env::var("TARGET").expect("cargo sets it");
    if target != TARGET {
        println!("cargo:warning=libprotolink.a is built for {TARGET}, not for {target}");
        return;
    }
    if !archive.is_file() {
        println!(
            "cargo:warning=there is no {}: set PROTOLINK_LIB_DIR to the folder that has it, as an absolute path",
            archive.display()
        );
        return;
    }
    println!("cargo:rustc-link-search=native={}", folder.display());
    println!("cargo:rustc-link-lib=static=protolink");
}
