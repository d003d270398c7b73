//! All crates have one version, and it is the C header's.
const HEADER: &str = include_str!("../../../include/isis_gr.h");
const WORKSPACE: &str = include_str!("../../Cargo.toml");

fn of_header(part: &str) -> &'static str {
    let name = format!("#define ISIS_GR_VERSION_{part} ");
    HEADER.lines().find_map(|line| line.strip_prefix(&name)).expect("the header has a version").trim()
}

#[test]
fn the_crates_have_the_headers_version() {
    let header = [of_header("MAJOR"), of_header("MINOR")];
    assert_eq!(header, [env!("CARGO_PKG_VERSION_MAJOR"), env!("CARGO_PKG_VERSION_MINOR")]);
}

#[test]
fn every_crate_takes_its_version_from_the_workspace() {
    let (_, rest) = WORKSPACE.split_once("members = [").expect("the workspace has members");
    let (members, _) = rest.split_once(']').expect("they end");
    let folder = std::path::Path::new(env!("CARGO_MANIFEST_DIR")).join("..");
    for member in members.split(',').map(|name| name.trim().trim_matches('"')) {
        let text = std::fs::read_to_string(folder.join(member).join("Cargo.toml")).expect("a member has a Cargo.toml");
        assert!(text.lines().any(|line| line == "version.workspace = true"), "{member}");
        assert!(!folder.join(member).join("Cargo.lock").exists(), "{member} has a Cargo.lock of its own");
    }
}
