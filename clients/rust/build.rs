//! Finds libpgserial: in the folder that $PGSERIAL_LIB_DIR names, or else by pkg-config.
//!
//! The folder's static library is linked where it is there, so that programs find it wherever they run. What pkg-config finds is
//! linked as a shared library, or with PGSERIAL_STATIC=1 as a static one.

use std::env;
use std::path::Path;
use std::process::{exit, Command};

const VARIABLES: [&str; 4] = ["PGSERIAL_LIB_DIR", "PGSERIAL_STATIC", "PKG_CONFIG", "PKG_CONFIG_PATH"];

fn link(folder: &str, is_static: bool) {
    println!("cargo:rustc-link-search=native={folder}");
    println!("cargo:rustc-link-lib={}=pgserial", if is_static { "static" } else { "dylib" });
}

/// The folder in which pkg-config finds the library.
fn asked() -> Result<String, String> {
    let tool = env::var("PKG_CONFIG").unwrap_or_else(|_| "pkg-config".to_string());
    let words = ["--variable=libdir", "pgserial"];
    let done = Command::new(&tool).args(words).output().map_err(|error| format!("{tool}: {error}"))?;
    if !done.status.success() {
        return Err(String::from_utf8_lossy(&done.stderr).trim_end().to_string());
    }
    Ok(String::from_utf8_lossy(&done.stdout).trim_end().to_string())
}

fn main() {
    for name in VARIABLES {
        println!("cargo:rerun-if-env-changed={name}");
    }
    if let Ok(folder) = env::var("PGSERIAL_LIB_DIR") {
        println!("cargo:rerun-if-changed={folder}");
        return link(&folder, Path::new(&folder).join("libpgserial.a").exists());
    }
    match asked() {
        Ok(folder) => link(&folder, env::var("PGSERIAL_STATIC").map_or(false, |it| it == "1")),
        Err(why) => {
            eprintln!("libpgserial isn't found: install it, or name the folder that has it by PGSERIAL_LIB_DIR\n{why}");
            exit(1);
        }
    }
}
