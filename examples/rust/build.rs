//! Links libheap_c.a and the kit's liblibc_c.a. `HEAP_C_LIB` is the first one's path, by default
//! that of the crate heap_c of this repository. `HEAP_C_KIT` is the second one's folder, by default
//! the one alongside the page that `rt doc` prints; `none` if the library needs no kit.

use std::env;
use std::path::{Path, PathBuf};
use std::process::Command;

/// The folder of liblibc_c.a, as `rt doc` tells it.
fn kit() -> Option<PathBuf> {
    let said = Command::new("rt").arg("doc").output().ok()?;
    let page = String::from_utf8(said.stdout).ok()?;
    Some(Path::new(page.trim()).parent()?.join("c"))
}

/// Has the linker take the archive at this path.
fn link(archive: &Path) {
    let name = archive
        .file_stem()
        .and_then(|stem| stem.to_str()?.strip_prefix("lib"))
        .expect("an archive's path");
    let folder = archive.parent().expect("an archive's path");
    assert!(archive.exists(), "{} is not there", archive.display());
    println!("cargo:rerun-if-changed={}", archive.display());
    println!("cargo:rustc-link-search=native={}", folder.display());
    println!("cargo:rustc-link-lib=static={name}");
}

fn main() {
    println!("cargo:rerun-if-env-changed=HEAP_C_LIB");
    println!("cargo:rerun-if-env-changed=HEAP_C_KIT");
    let here = PathBuf::from(env::var_os("CARGO_MANIFEST_DIR").expect("cargo sets it"));
    let library = env::var_os("HEAP_C_LIB").map_or_else(
        || here.join("../../crates/heap_c/out/libheap_c.a"),
        PathBuf::from,
    );
    link(&library);
    match env::var_os("HEAP_C_KIT") {
        Some(none) if none == "none" => {}
        Some(folder) => link(&Path::new(&folder).join("liblibc_c.a")),
        None => link(&kit().expect("`rt doc`, or HEAP_C_KIT").join("liblibc_c.a")),
    }
}
