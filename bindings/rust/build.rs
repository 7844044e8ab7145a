// Links libaspa_filter.a from ASPA_FILTER_LIB_DIR, or from target/install/lib of the repository that the package is in.
use std::env;
use std::path::{Path, PathBuf};

const LIBRARY: &str = "libaspa_filter.a";

fn main() {
    println!("cargo::rerun-if-env-changed=ASPA_FILTER_LIB_DIR");
    match directory() {
        Ok(dir) => {
            println!("cargo::rerun-if-changed={}", dir.join(LIBRARY).display());
            println!("cargo::rustc-link-search=native={}", dir.display());
            println!("cargo::rustc-link-lib=static=aspa_filter");
        }
        // Cargo shows the sentence and stops, without a panic's backtrace.
        Err(sentence) => println!("cargo::error={sentence}"),
    }
}

/// The directory of the library, or a sentence on what is missing.
fn directory() -> Result<PathBuf, String> {
    let target = |key: &str| env::var(key).unwrap_or_default();
    let (arch, os) = (
        target("CARGO_CFG_TARGET_ARCH"),
        target("CARGO_CFG_TARGET_OS"),
    );
    if (arch.as_str(), os.as_str()) != ("x86_64", "linux") {
        return Err(format!(
            "{LIBRARY} is for x86-64 Linux only, and the target is {arch} {os}"
        ));
    }
    let named = env::var_os("ASPA_FILTER_LIB_DIR").filter(|dir| !dir.is_empty());
    let dir = match &named {
        Some(dir) => PathBuf::from(dir),
        None => repository()
            .ok_or("the package is outside its repository: set ASPA_FILTER_LIB_DIR")?
            .join("target/install/lib"),
    };
    let shown = dir.display();
    // Cargo runs this in the package's directory, and not where the caller stands.
    if !dir.is_absolute() {
        return Err(format!(
            "ASPA_FILTER_LIB_DIR is {shown}, which is no absolute path"
        ));
    }
    if dir.join(LIBRARY).is_file() {
        return Ok(dir);
    }
    let first = if named.is_some() {
        "unset ASPA_FILTER_LIB_DIR and "
    } else {
        ""
    };
    Err(format!(
        "{shown} has no {LIBRARY}: {first}run `./install target/install` at the root of the repository"
    ))
}

/// The root is known by its crates.txt.
fn repository() -> Option<PathBuf> {
    let package = PathBuf::from(env::var_os("CARGO_MANIFEST_DIR")?);
    let is_root = |dir: &&Path| dir.join("crates.txt").is_file();
    package.ancestors().find(is_root).map(Path::to_path_buf)
}
