//! Compiles peers.c, the calls of libre and speexdsp, where their features are on.

use std::env;
use std::path::PathBuf;
use std::process::Command;

fn main() {
    println!("cargo:rerun-if-changed=peers.c");
    let peers: Vec<(&str, &str, &str)> =
        [("CARGO_FEATURE_LIBRE", "-DHAVE_LIBRE", "re"), ("CARGO_FEATURE_SPEEXDSP", "-DHAVE_SPEEXDSP", "speexdsp")]
            .into_iter()
            .filter(|(feature, _, _)| env::var_os(feature).is_some())
            .collect();
    if peers.is_empty() {
        return;
    }
    let folder = PathBuf::from(env::var_os("OUT_DIR").unwrap());
    let object = folder.join("peers.o");
    let archive = folder.join("libpeers.a");
    let mut cc = Command::new(env::var("CC").unwrap_or("cc".to_string()));
    cc.args(["-O2", "-fPIC", "-Wall", "-I/usr/include/re", "-c", "peers.c", "-o"]).arg(&object);
    cc.args(peers.iter().map(|(_, define, _)| define));
    run(&mut cc);
    run(Command::new("ar").arg("crs").arg(&archive).arg(&object));
    println!("cargo:rustc-link-search=native={}", folder.display());
    println!("cargo:rustc-link-lib=static=peers");
    for (_, _, library) in peers {
        println!("cargo:rustc-link-lib=dylib={library}");
    }
}

fn run(command: &mut Command) {
    let status = command.status().unwrap_or_else(|e| panic!("{command:?}: {e}"));
    assert!(status.success(), "{command:?} failed");
}
