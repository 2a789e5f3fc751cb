// Tells cargo where the proved machine's static library is, if it is to be linked: GLASS_LIB_DIR, or the root's target/staticlib.
use std::env;
use std::path::PathBuf;

fn main() {
    println!("cargo:rerun-if-env-changed=GLASS_LIB_DIR");
    if env::var_os("CARGO_FEATURE_PROVED").is_none() {
        return;
    }
    let here = PathBuf::from(env::var("CARGO_MANIFEST_DIR").expect("cargo says where the package is"));
    let dir = env::var("GLASS_LIB_DIR").map_or(here.join("../target/staticlib"), PathBuf::from);
    println!("cargo:rerun-if-changed={}", dir.join("libglass_c.a").display());
    println!("cargo:rustc-link-search=native={}", dir.display());
    println!("cargo:rustc-link-lib=static=glass_c");
}
