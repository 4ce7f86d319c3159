//! Links the archive that `tools/build archive` writes: target/staticlib/libhost.a of the repository, or the file that
//! the environment names as ALBMERIK_ARCHIVE.

use std::env;
use std::path::{Path, PathBuf};
use std::process::exit;

fn main() {
    println!("cargo:rerun-if-env-changed=ALBMERIK_ARCHIVE");
    let archive = match env::var_os("ALBMERIK_ARCHIVE") {
        Some(named) => PathBuf::from(named),
        None => Path::new(&env::var_os("CARGO_MANIFEST_DIR").expect("cargo sets CARGO_MANIFEST_DIR"))
            .join("../../target/staticlib/libhost.a"),
    };
    println!("cargo:rerun-if-changed={}", archive.display());
    let machine = env::var("CARGO_CFG_TARGET_ARCH").expect("cargo sets CARGO_CFG_TARGET_ARCH");
    if machine != "x86_64" {
        eprintln!("albmerik: the archive is for x86-64 and cannot be linked for {machine}");
        exit(1);
    }
    let Ok(found) = archive.canonicalize() else {
        eprintln!(
            "albmerik: no archive {}: make it with 'tools/build archive' in the repository's root, or name one as ALBMERIK_ARCHIVE",
            archive.display()
        );
        exit(1);
    };
    let name = found.file_name().and_then(|name| name.to_str()).unwrap_or_default();
    let Some(name) = name.strip_prefix("lib").and_then(|name| name.strip_suffix(".a")) else {
        eprintln!("albmerik: ALBMERIK_ARCHIVE must name a file lib*.a, not {}", found.display());
        exit(1);
    };
    println!("cargo:rustc-link-search=native={}", found.parent().expect("a file has a folder").display());
    println!("cargo:rustc-link-lib=static={name}");
}
