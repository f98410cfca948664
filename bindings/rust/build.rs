//! Where the library is: in the folder that CELLAR_LIB_DIR names, or where pkg-config says. With CELLAR_STATIC it is linked in.
use std::env;
use std::process::Command;

fn from_pkg_config(name: &str) -> Option<String> {
    let told = Command::new("pkg-config").args(["--variable=libdir", name]).output().ok()?;
    let folder = String::from_utf8(told.stdout).ok()?.trim().to_string();
    (told.status.success() && !folder.is_empty()).then_some(folder)
}

fn link(name: &str, folder: &Option<String>) {
    let is_static = env::var_os("CELLAR_STATIC").is_some();
    if let Some(folder) = folder {
        println!("cargo:rustc-link-search=native={folder}");
        if !is_static {
            println!("cargo:rustc-link-arg=-Wl,-rpath,{folder}");
        }
    }
    println!("cargo:rustc-link-lib={}={name}", if is_static { "static" } else { "dylib" });
}

fn main() {
    println!("cargo:rustc-check-cfg=cfg(cellarcliff_helgrind, cellarcliff_all_in_engine)");
    for name in ["CELLAR_LIB_DIR", "CELLAR_STATIC", "PKG_CONFIG_PATH"] {
        println!("cargo:rerun-if-env-changed={name}");
    }
    let folder = env::var("CELLAR_LIB_DIR").ok().or_else(|| from_pkg_config("cellarcliff"));
    if folder.is_none() {
        println!("cargo:warning=pkg-config names no folder of the library: unless the linker finds it, install it, and set PKG_CONFIG_PATH or CELLAR_LIB_DIR");
    }
    link("cellarcliff", &folder);
}
