//! Links the proved archives, and takes the sizes from the C header. `ISIS_GR_LIB_DIR` names their folder; without it, the folder that `make archive`
//! writes to.
use std::path::PathBuf;

fn main() {
    println!("cargo:rerun-if-env-changed=ISIS_GR_LIB_DIR");
    let root = PathBuf::from(std::env::var_os("CARGO_MANIFEST_DIR").expect("cargo sets it")).join("../..");
    let folder = std::env::var_os("ISIS_GR_LIB_DIR").map(PathBuf::from).unwrap_or_else(|| root.join("target/staticlib"));
    println!("cargo:rustc-link-search=native={}", folder.display());
    for archive in ["isis_gr", "isis_gr_chunks", "isis_gr_why"] {
        println!("cargo:rerun-if-changed={}", folder.join(format!("lib{archive}.a")).display());
        println!("cargo:rustc-link-lib=static={archive}");
    }

    let header = root.join("include/isis_gr.h");
    println!("cargo:rerun-if-changed={}", header.display());
    let text = std::fs::read_to_string(&header).expect("the header is beside the crates");
    let size = |name: &str| -> usize {
        let line = text.lines().find(|line| line.starts_with(&format!("#define ISIS_GR_{name} "))).expect("the header names the size");
        line.split_whitespace().nth(2).expect("a number follows").trim_end_matches('u').parse().expect("it is a number")
    };
    let sizes = format!(
        "/// The words of a gateway.\npub const GATEWAY_WORDS: usize = {};\n\n\
         /// The octets of a memory for frames.\npub const FRAME_OCTETS: usize = {};\n\n\
         /// The most octets of an unfinished frame.\npub const MOST_OCTETS: usize = {};\n\n\
         /// The octets of the settings.\npub const SETTINGS_OCTETS: usize = {};\n\n\
         /// The most circuits of a gateway.\npub const CIRCUITS: usize = {};\n\n\
         /// The layout of settings, answers and memory that the header has.\npub const LAYOUT: u32 = {};\n",
        size("GATEWAY_WORDS"),
        size("FRAME_OCTETS"),
        size("MOST_OCTETS"),
        size("SETTINGS_OCTETS"),
        size("MAX_CIRCUITS"),
        size("LAYOUT")
    );
    let out = PathBuf::from(std::env::var_os("OUT_DIR").expect("cargo sets it")).join("sizes.rs");
    std::fs::write(out, sizes).expect("the output folder can be written");
}
