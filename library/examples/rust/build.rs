//! Where the library is: in `LRC_LIB_DIR`, where programs then look for it too, or where the linker and the loader look.
fn main() {
    if let Ok(folder) = std::env::var("LRC_LIB_DIR") {
        println!("cargo:rustc-link-search=native={folder}");
        println!("cargo:rustc-link-arg=-Wl,-rpath,{folder}");
    }
    println!("cargo:rerun-if-env-changed=LRC_LIB_DIR");
}
