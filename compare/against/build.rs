//! Links the static library of the host's call, which lies in the folder that HOST_LIB names.
use std::env;

fn main() {
    println!("cargo:rerun-if-env-changed=HOST_LIB");
    let folder = env::var("HOST_LIB").expect("set HOST_LIB to the folder of libhost.a");
    println!("cargo:rerun-if-changed={folder}/libhost.a");
    println!("cargo:rustc-link-search=native={folder}");
    println!("cargo:rustc-link-lib=static=host");
}
