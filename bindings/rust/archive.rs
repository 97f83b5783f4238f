//! Which libgate_c.a is linked, for build scripts: that of this repository, or the one that GATE_LIB_DIR names on purpose.
use std::ffi::OsStr;
use std::path::{Path, PathBuf};
use std::time::SystemTime;

/// Tells cargo what to link, or ends with why nothing can be. `above` is the repository's folder as the package sees it. Where
/// that is, is asked now: a build script that was copied with its folder would still name the old one.
pub fn link(above: &str) {
    println!("cargo:rerun-if-env-changed=GATE_LIB_DIR");
    let root = PathBuf::from(std::env::var_os("CARGO_MANIFEST_DIR").expect("cargo sets it")).join(above);
    match named().unwrap_or_else(|| built(&root)) {
        Ok(folder) => {
            println!("cargo:rerun-if-changed={}", folder.join("libgate_c.a").display());
            println!("cargo:rustc-link-search=native={}", folder.display());
            println!("cargo:rustc-link-lib=static=gate_c");
        }
        Err(why) => {
            // said here, since the linker's own message names no remedy
            eprintln!("{why}");
            std::process::exit(1);
        }
    }
}

/// The folder of GATE_LIB_DIR, where that is set; never silently, since nothing holds this archive to the sources here.
fn named() -> Option<Result<PathBuf, String>> {
    let folder = PathBuf::from(std::env::var_os("GATE_LIB_DIR")?);
    if !folder.is_absolute() || !folder.join("libgate_c.a").is_file() {
        let told = format!("GATE_LIB_DIR is {folder:?}, which is not an absolute path of a folder with libgate_c.a.");
        return Some(Err(format!("{told} Unset it to link the archive of the repository.")));
    }
    println!("cargo:warning=links libgate_c.a of {}, which GATE_LIB_DIR names", folder.display());
    Some(Ok(folder))
}

/// What `tools/prove gate_c` put here, unless it is older than what it was made from.
fn built(root: &Path) -> Result<PathBuf, String> {
    let folder = root.join("target/staticlib");
    let archive = folder.join("libgate_c.a");
    let sources = sources(root);
    sources.iter().for_each(|source| println!("cargo:rerun-if-changed={}", source.display()));
    let remedy =
        "run `tools/prove gate_c` at the repository's root, or set GATE_LIB_DIR to the folder of another archive";
    let Some(made) = changed(&archive) else {
        return Err(format!("{} is missing: {remedy}.", archive.display()));
    };
    match sources.iter().find_map(|source| newer(source, made)) {
        Some(source) => Err(format!("{} is older than {}: {remedy}.", archive.display(), source.display())),
        None => Ok(folder),
    }
}

/// crates.txt, and what lies in each folder of crates/, but for out/, where rt keeps its work.
fn sources(root: &Path) -> Vec<PathBuf> {
    let parts =
        inside(&root.join("crates"))
            .into_iter()
            .flat_map(|path| if path.is_dir() { inside(&path) } else { vec![path] });
    let kept = parts.filter(|path| path.file_name() != Some(OsStr::new("out")));
    kept.chain([root.join("crates.txt")]).collect()
}

/// What lies in a folder; nothing where it cannot be read.
fn inside(folder: &Path) -> Vec<PathBuf> {
    folder.read_dir().map_or(Vec::new(), |entries| entries.filter_map(Result::ok).map(|entry| entry.path()).collect())
}

fn changed(path: &Path) -> Option<SystemTime> {
    path.metadata().and_then(|about| about.modified()).ok()
}

/// A file at or below `path` that changed later than that.
fn newer(path: &Path, than: SystemTime) -> Option<PathBuf> {
    if path.is_dir() {
        return inside(path).iter().find_map(|path| newer(path, than));
    }
    changed(path).filter(|time| *time > than).map(|_| path.to_path_buf())
}
