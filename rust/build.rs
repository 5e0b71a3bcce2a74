//! Links the proved library, which is for x86-64 Linux (and links where there is no system at all). `tools/build`
//! writes it to the repository's target/staticlib/; GPOS_LIB_DIR names another folder.
use std::env;
use std::path::Path;

fn main() {
    println!("cargo:rerun-if-env-changed=GPOS_LIB_DIR");
    let package = env::var("CARGO_MANIFEST_DIR").unwrap();
    let folder = env::var("GPOS_LIB_DIR").ok().filter(|named| !named.is_empty());
    // Joined, an absolute folder stays as it is; a relative one starts at this package, wherever the linker runs.
    let folder = Path::new(&package).join(folder.as_deref().unwrap_or("../target/staticlib"));
    let archive = folder.join("libgpos_c.a");
    println!("cargo:rerun-if-changed={}", archive.display());
    if !is_for_target() {
        let target = env::var("TARGET").unwrap_or_default();
        println!("cargo:warning=libgpos_c.a is for x86-64 Linux: nothing that uses gpos will link for {target}");
        return;
    }
    println!("cargo:rustc-link-search=native={}", folder.display());
    println!("cargo:rustc-link-lib=static=gpos_c");
    if !archive.is_file() {
        warn_of_missing(&folder);
    }
}

fn is_for_target() -> bool {
    let [arch, os] = ["CARGO_CFG_TARGET_ARCH", "CARGO_CFG_TARGET_OS"].map(|name| env::var(name).unwrap_or_default());
    arch == "x86_64" && (os == "linux" || os == "none")
}

/// Warnings and no error, since `cargo check` and `cargo doc` don't need the archive.
fn warn_of_missing(folder: &Path) {
    println!("cargo:warning=there is no libgpos_c.a in {}", folder.display());
    println!("cargo:warning=without it gpos can't be built; `cargo check` and `cargo doc` work");
    println!("cargo:warning=`tools/build`, run in the repository, writes it to target/staticlib");
    println!("cargo:warning=where it is elsewhere (say, by `tools/install PREFIX`), set GPOS_LIB_DIR to its folder");
}
