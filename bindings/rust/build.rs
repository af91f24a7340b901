//! Tells the linker where `libpelgaisti.a` is: in the folder that `PELGAISTI_LIB_DIR` names; else in `lib/` of the prefix below
//! which this crate was installed, in `share/pelgaisti/rust`; else in `out/` of the repository that it lies in, where `./embed`
//! leaves it. Where there is only `libpelgaisti_unproved.a`, in such a folder or where `./embed --try` leaves it, it takes that one, of
//! which nothing is proved, and says so.

use std::env;
use std::path::PathBuf;

fn main() {
    println!("cargo:rerun-if-env-changed=PELGAISTI_LIB_DIR");
    let folders = match env::var_os("PELGAISTI_LIB_DIR") {
        Some(folder) => vec![PathBuf::from(folder)],
        None => {
            let here = PathBuf::from(env::var_os("CARGO_MANIFEST_DIR").unwrap_or_default());
            let installed = here.join("../../../lib");
            if here.ends_with("share/pelgaisti/rust") && installed.join("libpelgaisti.a").exists() {
                vec![installed]
            } else {
                vec![here.join("../../out"), here.join("../../out/try")]
            }
        }
    };
    let named = |name: &str| folders.iter().find(|folder| folder.join(format!("lib{name}.a")).exists());
    let (name, folder) = match (named("pelgaisti"), named("pelgaisti_unproved")) {
        (None, Some(folder)) => ("pelgaisti_unproved", folder),
        (found, _) => ("pelgaisti", found.unwrap_or(&folders[0])),
    };
    let archive = folder.join(format!("lib{name}.a"));
    if !archive.exists() {
        println!(
            "cargo:warning={} isn't there: build it by ./embed, or set PELGAISTI_LIB_DIR to its folder",
            archive.display()
        );
    } else if name != "pelgaisti" {
        println!("cargo:warning=nothing of {} is proved", archive.display());
    }
    for folder in &folders {
        println!("cargo:rerun-if-changed={}", folder.join("libpelgaisti.a").display());
    }
    println!("cargo:rerun-if-changed={}", archive.display());
    println!("cargo:rustc-link-search=native={}", folder.display());
    println!("cargo:rustc-link-lib=static={name}");
}
