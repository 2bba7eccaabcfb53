//! Links the archive that `bindings/build` puts into target/staticlib; ROSKUDLA_LIB_DIR names its folder where it is another one than this repository's.
use std::env;
use std::path::PathBuf;

fn main() {
    let folder = match env::var_os("ROSKUDLA_LIB_DIR") {
        Some(folder) => PathBuf::from(folder),
        None => PathBuf::from(env::var_os("CARGO_MANIFEST_DIR").expect("cargo names the package's folder")).join("../../target/staticlib"),
    };
    println!("cargo:rerun-if-env-changed=ROSKUDLA_LIB_DIR");
    println!("cargo:rerun-if-changed={}", folder.join("libroskudla.a").display());
    println!("cargo:rustc-link-search=native={}", folder.display());
    println!("cargo:rustc-link-lib=static=roskudla");
}
