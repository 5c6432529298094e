//! Finds the archives that the wrappers are linked with: those that the variable `ARCHIVES` names, separated as in `PATH`, in their
//! order; where it is not set, the files `lib*.a` of the folder `archives` beside `Cargo.toml`. Where there are none it says what to
//! do. `cargo check`, `cargo clippy` and `cargo doc` need none, so that is no error yet: what is linked without them fails.

use std::env;
use std::fs;
use std::path::{self, Path, PathBuf};

/// What names the archives.
const VARIABLE: &str = "ARCHIVES";

/// The folder that is looked into where nothing names them.
const FOLDER: &str = "archives";

/// The libraries that the wrappers call.
const LIBRARIES: [&str; 3] = ["delay_queue_c", "timers_c", "sched_c"];

/// What to do where no archive is found.
const ADVICE: [&str; 4] = [
    "no archive of the library is found: `cargo check` and `cargo doc` do without, but nothing can be linked.",
    "In the repository, run `bindings/rust/with_archives COMMAND` in place of `cargo COMMAND`: it proves the library and makes \
     the archives.",
    "Elsewhere, put libdelay_queue_c.a, libtimers_c.a, libsched_c.a and the toolchain's liblibc_c.a, or one archive of all, into the \
     folder `archives` beside Cargo.toml,",
    "or name these files in the variable ARCHIVES, separated by `:`, with liblibc_c.a last. docs/EMBEDDING.md says how they are made.",
];

/// The archives in a folder, those of the wrappers' libraries first: what these call stands behind them.
fn archives_in(folder: &Path) -> Vec<PathBuf> {
    let mut archives: Vec<PathBuf> = fs::read_dir(folder)
        .into_iter()
        .flatten()
        .flatten()
        .map(|entry| entry.path())
        .filter(|path| name_of(path).is_some())
        .collect();
    archives.sort_by_key(|path| {
        let called = !LIBRARIES.map(Some).contains(&name_of(path));
        (called, path.clone())
    });
    archives
}

/// The name by which a linker asks for an archive: that of `libNAME.a` is NAME. `None`: the file is not named so.
fn name_of(archive: &Path) -> Option<&str> {
    archive
        .file_name()?
        .to_str()?
        .strip_prefix("lib")?
        .strip_suffix(".a")
}

/// The archives that are to be linked.
fn archives() -> Vec<PathBuf> {
    let Some(named) = env::var_os(VARIABLE) else {
        println!("cargo::rerun-if-changed={FOLDER}");
        return archives_in(Path::new(FOLDER));
    };
    env::split_paths(&named)
        .filter(|path| !path.as_os_str().is_empty())
        .collect()
}

/// Has an archive linked.
fn link(archive: &Path) {
    println!("cargo::rerun-if-changed={}", archive.display());
    let place = path::absolute(archive).ok().filter(|path| path.is_file());
    let folder = place.as_deref().and_then(Path::parent);
    let (Some(name), Some(folder)) = (name_of(archive), folder) else {
        println!(
            "cargo::error={VARIABLE} names {}, which is no file lib*.a that is there",
            archive.display()
        );
        return;
    };
    println!("cargo::rustc-link-search=native={}", folder.display());
    println!("cargo::rustc-link-lib=static={name}");
}

/// Says what to do, and has the linker name the libraries that it misses.
fn advise() {
    for line in ADVICE {
        println!("cargo::warning={line}");
    }
    for library in LIBRARIES {
        println!("cargo::rustc-link-lib=static={library}");
    }
}

fn main() {
    println!("cargo::rerun-if-env-changed={VARIABLE}");
    println!("cargo::rerun-if-changed=build.rs");
    let archives = archives();
    if archives.is_empty() {
        advise();
    }
    for archive in &archives {
        link(archive);
    }
}
