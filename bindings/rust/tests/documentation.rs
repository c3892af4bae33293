//! `cargo doc` needs no archive; a build without it fails, and says what to do.
use std::env;
use std::path::Path;
use std::process::{Command, Output};

/// Runs a command of Cargo on this crate in an empty target folder, with no archive.
fn cargo(command: &str, variables: &[(&str, &str)]) -> Output {
    let folder = Path::new(env!("CARGO_TARGET_TMPDIR")).join("without-the-archive");
    std::fs::create_dir_all(&folder).unwrap();
    Command::new(env::var_os("CARGO").expect("cargo runs the tests"))
        .args([command, "--offline", "--manifest-path"])
        .arg(Path::new(env!("CARGO_MANIFEST_DIR")).join("Cargo.toml"))
        .arg("--target-dir")
        .arg(folder.join(command))
        .env_remove("DOCS_RS")
        .env("L4_LIB_DIR", &folder)
        .envs(variables.iter().copied())
        .output()
        .unwrap()
}

#[test]
fn the_documentation_needs_no_archive() {
    let done = cargo("doc", &[]);
    assert!(done.status.success(), "{done:?}");
}

#[test]
fn a_build_without_the_archive_says_what_to_do() {
    let done = cargo("build", &[]);
    let text = String::from_utf8(done.stderr).unwrap();
    assert!(!done.status.success());
    assert!(
        text.contains("has no libl4.a. Run `make install-library"),
        "{text}"
    );
}

#[test]
fn a_build_for_documentation_needs_no_archive() {
    let done = cargo("check", &[("DOCS_RS", "1")]);
    assert!(done.status.success(), "{done:?}");
}
