//! Finds libscl: in the folder that `SCL_LIB_DIR` names, or else by `pkg-config`. It links `libscl.a` if that is there, and
//! `libscl.so` if not, or if `SCL_DYNAMIC` is set.
use std::env;
use std::path::PathBuf;
use std::process::{exit, Command};

fn folder() -> Option<PathBuf> {
    if let Some(named) = env::var_os("SCL_LIB_DIR") {
        return Some(PathBuf::from(named));
    }
    let asked = Command::new("pkg-config")
        .args(["--variable=libdir", "scl"])
        .output()
        .ok()?;
    let path = String::from_utf8(asked.stdout).ok()?;
    (asked.status.success() && !path.trim().is_empty()).then(|| PathBuf::from(path.trim()))
}

fn main() {
    for name in ["SCL_LIB_DIR", "SCL_DYNAMIC", "PKG_CONFIG_PATH"] {
        println!("cargo:rerun-if-env-changed={name}");
    }
    let Some(folder) = folder() else {
        eprintln!("scl-sys: libscl is not found: set SCL_LIB_DIR to its folder, or PKG_CONFIG_PATH to the folder of scl.pc");
        exit(1);
    };
    let is_static = env::var_os("SCL_DYNAMIC").is_none() && folder.join("libscl.a").is_file();
    println!("cargo:rustc-link-search=native={}", folder.display());
    println!(
        "cargo:rustc-link-lib={}=scl",
        if is_static { "static" } else { "dylib" }
    );
}
