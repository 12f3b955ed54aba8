//! Links libheolstorpit: from the folder that HEOLSTORPIT_LIB_DIR names, or from crates/heolstorpit/out of the repository, where
//! `rt lib` in crates/heolstorpit writes it. HEOLSTORPIT_LIB_KIND=dylib links a shared library instead.

use std::env;
use std::path::{Path, PathBuf};

fn main() {
    println!("cargo:rerun-if-env-changed=HEOLSTORPIT_LIB_DIR");
    println!("cargo:rerun-if-env-changed=HEOLSTORPIT_LIB_KIND");
    let folder = match env::var_os("HEOLSTORPIT_LIB_DIR") {
        Some(folder) => PathBuf::from(folder),
        None => Path::new(&env::var_os("CARGO_MANIFEST_DIR").unwrap()).join("../../crates/heolstorpit/out"),
    };
    let kind = env::var("HEOLSTORPIT_LIB_KIND").unwrap_or("static".to_string());
    let file = folder.join(if kind == "static" { "libheolstorpit.a" } else { "libheolstorpit.so" });
    println!("cargo:rerun-if-changed={}", file.display());
    if !file.exists() {
        println!("cargo:warning={} is missing: run `rt lib` in crates/heolstorpit first, or set HEOLSTORPIT_LIB_DIR", file.display());
    }
    println!("cargo:rustc-link-search=native={}", folder.display());
    println!("cargo:rustc-link-lib={kind}=heolstorpit");
}
