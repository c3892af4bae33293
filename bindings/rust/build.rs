//! Finds the archive libl4.a: in the folder that L4_LIB_DIR names, or else in the folder that pkg-config names. If it is missing, the crate
//! does not compile, but `cargo doc` works. If DOCS_RS is set, the archive is not looked for, so crates that use this one have documentation
//! too; their programs cannot be linked then.
use std::env;
use std::path::PathBuf;
use std::process::Command;

/// Returns the folder that pkg-config names for the library l4.
fn asked() -> Result<PathBuf, String> {
    let program = env::var_os("PKG_CONFIG").unwrap_or_else(|| "pkg-config".into());
    let output = Command::new(&program)
        .args(["--variable=libdir", "l4"])
        .output()
        .map_err(|fault| format!("{} could not be run: {fault}", program.to_string_lossy()))?;
    if output.status.success() {
        let text = String::from_utf8_lossy(&output.stdout);
        Ok(PathBuf::from(text.trim_end()))
    } else {
        Err("pkg-config knows no library l4".into())
    }
}

/// Returns the folder that has the archive.
fn folder() -> Result<PathBuf, String> {
    let folder = match env::var_os("L4_LIB_DIR") {
        Some(folder) => PathBuf::from(folder),
        None => asked()?,
    };
    if folder.join("libl4.a").is_file() {
        Ok(folder)
    } else {
        Err(format!("{} has no libl4.a", folder.display()))
    }
}

fn main() {
    println!("cargo:rerun-if-changed=build.rs");
    println!("cargo:rustc-check-cfg=cfg(l4_missing)");
    for name in ["DOCS_RS", "L4_LIB_DIR", "PKG_CONFIG", "PKG_CONFIG_PATH"] {
        println!("cargo:rerun-if-env-changed={name}");
    }
    if env::var_os("DOCS_RS").is_some() {
        return;
    }
    match folder() {
        Ok(folder) => {
            println!(
                "cargo:rerun-if-changed={}",
                folder.join("libl4.a").display()
            );
            println!("cargo:rustc-link-search=native={}", folder.display());
            println!("cargo:rustc-link-lib=static=l4");
        }
        Err(why) => {
            println!("cargo:rustc-cfg=l4_missing");
            println!("cargo:rustc-env=L4_MISSING={why}. Run `make install-library PREFIX=$HOME/l4`, and set L4_LIB_DIR=$HOME/l4/lib or PKG_CONFIG_PATH=$HOME/l4/lib/pkgconfig. This proves the library first, which takes long. To try the library without proofs, run `make try-library` in the folder LYCHEEYARD of the repository, and set L4_LIB_DIR=LYCHEEYARD/out/unproved/usr/lib");
        }
    }
}
