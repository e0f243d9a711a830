//! Builds the second implementation in C, and links libspav.a of the folder that SPAV_LIB names, if it names one.
use std::env;
use std::path::PathBuf;
use std::process::Command;

fn run(command: &mut Command) {
    assert!(command.status().expect("it starts").success(), "{command:?}");
}

fn main() {
    let out = PathBuf::from(env::var_os("OUT_DIR").expect("cargo sets it"));
    let source = "../../bench/capi/one_pass.c";
    let (object, archive) = (out.join("one_pass.o"), out.join("libone_pass.a"));
    run(Command::new("cc").args(["-O2", "-c", source, "-o"]).arg(&object));
    run(Command::new("ar").arg("rcs").arg(&archive).arg(&object));
    println!("cargo:rerun-if-changed={source}");
    println!("cargo:rerun-if-env-changed=SPAV_LIB");
    println!("cargo:rustc-link-search=native={}", out.display());
    println!("cargo:rustc-link-lib=static=one_pass");
    if let Ok(folder) = env::var("SPAV_LIB") {
        println!("cargo:rustc-link-search=native={folder}");
        println!("cargo:rustc-link-lib=static=spav");
        println!("cargo:rustc-cfg=spav");
    }
}
