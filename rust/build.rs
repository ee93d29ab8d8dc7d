//! Finds the proved library, and has it linked. It is looked for in the folder SHAFTGLIMMER_LIB if that is set; else
//! where pkg-config has it, then in ../target/staticlib, where make puts it as libhost.a, then where it is if this crate
//! was installed with it. With SHAFTGLIMMER_LINK=shared it is the shared library, which the system then has to find
//! when a program starts.

use std::env;
use std::path::PathBuf;
use std::process::{exit, Command};

fn main() {
    println!("cargo:rerun-if-changed=build.rs");
    for variable in ["SHAFTGLIMMER_LIB", "SHAFTGLIMMER_LINK", "PKG_CONFIG_PATH", "DOCS_RS"] {
        println!("cargo:rerun-if-env-changed={variable}");
    }
    // Documentation links nothing.
    if env::var_os("DOCS_RS").is_some() {
        return;
    }
    let shared = env::var_os("SHAFTGLIMMER_LINK").is_some_and(|how| how == "shared");
    let names: &[&str] = if shared { &["libshaftglimmer.so"] } else { &["libshaftglimmer.a", "libhost.a"] };
    let folders = folders();
    let mut files = folders.iter().flat_map(|folder| names.iter().map(move |name| (folder, name)));
    let Some((folder, name)) = files.find(|(folder, name)| folder.join(name).is_file()) else {
        let folders: Vec<String> = folders.iter().map(|folder| folder.display().to_string()).collect();
        eprintln!(
            "There is no {} in {}: run `make` in the repository, or set SHAFTGLIMMER_LIB to the folder that has it.",
            names[0],
            folders.join(" or ")
        );
        exit(1);
    };
    let plain = name.trim_start_matches("lib").trim_end_matches(".so").trim_end_matches(".a");
    println!("cargo:rustc-link-search=native={}", folder.display());
    println!("cargo:rustc-link-lib={}={plain}", if shared { "dylib" } else { "static" });
    println!("cargo:rerun-if-changed={}", folder.join(name).display());
}

/// Where to look, in this order.
fn folders() -> Vec<PathBuf> {
    if let Some(folder) = env::var_os("SHAFTGLIMMER_LIB") {
        return vec![PathBuf::from(folder)];
    }
    let here = PathBuf::from(env::var_os("CARGO_MANIFEST_DIR").unwrap_or_default());
    let around = ["../target/staticlib", "../../../lib"].map(|folder| here.join(folder));
    by_pkg_config().into_iter().chain(around).collect()
}

fn by_pkg_config() -> Option<PathBuf> {
    let output = Command::new("pkg-config").args(["--variable=libdir", "shaftglimmer"]).output().ok()?;
    let folder = String::from_utf8(output.stdout).ok()?;
    let folder = folder.trim();
    (output.status.success() && !folder.is_empty()).then(|| PathBuf::from(folder))
}
