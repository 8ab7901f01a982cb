//! Finds the library of lowering and the C library of the Rattle toolchain, and has both linked.
//!
//! `LAXIRBON_LIB` names the archive of lowering. Without it the one of the checkout is taken that this crate is in. `LAXIRBON_LIBC` names
//! the archive of the toolchain. Without it the one of the `rt` on the path is taken.

use std::env;
use std::path::{Path, PathBuf};
use std::process::exit;

fn main() {
    println!("cargo::rerun-if-env-changed=LAXIRBON_LIB");
    println!("cargo::rerun-if-env-changed=LAXIRBON_LIBC");
    if env::var_os("CARGO_FEATURE_LIBRARY").is_none() {
        return;
    }
    // The first one needs the second.
    link(&lowering());
    link(&toolchain());
}

fn fail(what: &str) -> ! {
    println!("cargo::error={what}");
    exit(1);
}

/// The archive of lowering.
fn lowering() -> PathBuf {
    if let Some(named) = env::var_os("LAXIRBON_LIB") {
        return existing_file(named.into())
            .unwrap_or_else(|path| fail(&format!("LAXIRBON_LIB is {}, and that is no file", path.display())));
    }
    let checkout = Path::new(env!("CARGO_MANIFEST_DIR")).join("../../crates/lower_c/out/liblower_c.a");
    existing_file(checkout).unwrap_or_else(|path| {
        fail(&format!("no {}. `rt lib` in crates/lower_c makes it; or set LAXIRBON_LIB to an archive", path.display()))
    })
}

/// The archive of the toolchain, which has what allocates.
fn toolchain() -> PathBuf {
    if let Some(named) = env::var_os("LAXIRBON_LIBC") {
        return existing_file(named.into())
            .unwrap_or_else(|path| fail(&format!("LAXIRBON_LIBC is {}, and that is no file", path.display())));
    }
    let folders = env::var_os("PATH").unwrap_or_default();
    let found = env::split_paths(&folders).find_map(|folder| {
        let rt = folder.join("rt").canonicalize().ok()?;
        existing_file(rt.parent()?.parent()?.join("c/liblibc_c.a")).ok()
    });
    found.unwrap_or_else(|| fail("no rt on the path, so set LAXIRBON_LIBC to c/liblibc_c.a of the Rattle toolchain"))
}

fn existing_file(path: PathBuf) -> Result<PathBuf, PathBuf> {
    if path.is_file() { path.canonicalize().map_err(|_| path) } else { Err(path) }
}

/// Links an archive, `libNAME.a`.
fn link(archive: &Path) {
    println!("cargo::rerun-if-changed={}", archive.display());
    let name = archive.file_name().and_then(|name| name.to_str()).and_then(|name| name.strip_prefix("lib")?.strip_suffix(".a"));
    let (Some(name), Some(folder)) = (name, archive.parent()) else {
        fail(&format!("{} isn't called libNAME.a", archive.display()));
    };
    println!("cargo::rustc-link-search=native={}", folder.display());
    println!("cargo::rustc-link-lib=static={name}");
}
