//! Takes the original's text from the file that ORIGINAL names, unchanged, and adds one line at its end: a child
//! module, which sees the private links. The copy lies in OUT_DIR only.
use std::{env, fs, path::Path};

fn main() {
    println!("cargo:rerun-if-env-changed=ORIGINAL");
    let source = env::var("ORIGINAL").expect("set ORIGINAL to the path of automerge 0.11.0's src/op_set2/skip_list.rs");
    println!("cargo:rerun-if-changed={source}");
    println!("cargo:rerun-if-changed=build.rs");
    let text = fs::read_to_string(&source).unwrap_or_else(|e| panic!("{source}: {e}"));
    // FNV-1a pins the text that the comparison is against.
    let mark = text.bytes().fold(0xcbf2_9ce4_8422_2325u64, |h, b| (h ^ u64::from(b)).wrapping_mul(0x100_0000_01b3));
    // ORIGINAL_ANY lets a changed text in, to see that the comparison finds the change.
    println!("cargo:rerun-if-env-changed=ORIGINAL_ANY");
    let pinned = env::var("ORIGINAL_ANY").is_err();
    assert!(!pinned || (text.len(), mark) == (14881, 0x58ab869c374567c1), "{source} is not the text that the comparison is for ({} bytes, {mark:#x})", text.len());

    let out = env::var("OUT_DIR").unwrap();
    let here = env::var("CARGO_MANIFEST_DIR").unwrap();
    let copy = Path::new(&out).join("skip_list.rs");
    let readable = Path::new(&here).join("src/readable.rs");
    fs::write(&copy, format!("{text}\n#[path = {readable:?}]\npub mod readable;\n")).unwrap();
    fs::write(Path::new(&out).join("mount.rs"), format!("#[path = {copy:?}]\nmod skip_list;\n")).unwrap();
}
