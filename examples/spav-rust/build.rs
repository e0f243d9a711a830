//! Links the library: from the folder that SPAV_LIB names, else from where libraries are installed.
fn main() {
    println!("cargo:rerun-if-env-changed=SPAV_LIB");
    if let Ok(folder) = std::env::var("SPAV_LIB") {
        println!("cargo:rustc-link-search=native={folder}");
        // So that this crate's own programs find the shared library there when they start.
        println!("cargo:rustc-link-arg=-Wl,-rpath,{folder}");
    }
    println!("cargo:rustc-link-lib=spav");
}
