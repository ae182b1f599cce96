//! Links the static library of the measured work, which lies in the folder that SPEED_LIB names.
use std::env;

fn main() {
    println!("cargo:rerun-if-env-changed=SPEED_LIB");
    let folder = env::var("SPEED_LIB").expect("set SPEED_LIB to the folder of libspeed.a");
    println!("cargo:rerun-if-changed={folder}/libspeed.a");
    println!("cargo:rustc-link-search=native={folder}");
    println!("cargo:rustc-link-lib=static=speed");
}
