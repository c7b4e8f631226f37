//! Links the library: the one inside the crate, as `scripts/release` and `scripts/install` put it there, or the one in the
//! folder FANCY_LIBRARY, or the one that pkg-config knows. Documents are made without it too.

use std::env::var;
use std::path::{Path, PathBuf};
use std::process::Command;

const ADVICE: &str = "the library `fancy` was not found, so programs are not linked. \
Install it by `scripts/install library`, which needs the Rattle kit once; say where to pkg-config, by \
PKG_CONFIG_PATH=PREFIX/lib/pkgconfig, if its prefix is another than /usr/local. Or name the folder of libfancy.so or \
libfancy.a in FANCY_LIBRARY. FANCY_STATIC=1 takes libfancy.a if both are there.";

fn main() {
    println!("cargo:rerun-if-changed=build.rs");
    for variable in [
        "FANCY_LIBRARY",
        "FANCY_STATIC",
        "FANCY_KIT",
        "PKG_CONFIG_PATH",
    ] {
        println!("cargo:rerun-if-env-changed={variable}");
    }
    let own = own_folder();
    if own.join("libfancy.a").exists() {
        link(&own.display().to_string(), "static", "fancy");
    } else if let Ok(folder) = var("FANCY_LIBRARY") {
        stop_on(link_from(&folder));
    } else if let Err(why) = link_by_pkg_config() {
        // No error: `cargo doc` and `cargo check` need no library, and the linker will say that it is missing.
        println!("cargo:rustc-link-lib=dylib=fancy");
        for line in [ADVICE, &why].iter().flat_map(|text| text.lines()) {
            println!("cargo:warning={line}");
        }
    }
}

/// Where the crate has a library of its own for this target.
fn own_folder() -> PathBuf {
    let named = |variable| var(variable).unwrap_or_default();
    Path::new(&named("CARGO_MANIFEST_DIR"))
        .join("native")
        .join(named("TARGET"))
}

fn stop_on(linked: Result<(), String>) {
    if let Err(why) = linked {
        eprintln!("fancy-sys: {ADVICE}\n{why}");
        std::process::exit(1);
    }
}

fn is_static() -> bool {
    var("FANCY_STATIC").map_or(false, |word| word != "0")
}

fn link(folder: &str, kind: &str, name: &str) {
    println!("cargo:rustc-link-search=native={folder}");
    println!("cargo:rustc-link-lib={kind}={name}");
}

/// Links what lies in a folder: `libfancy.so`, `libfancy.a`, or the library of `rt lib` with that of the kit beside it.
fn link_from(folder: &str) -> Result<(), String> {
    let path = Path::new(folder);
    println!("cargo:rerun-if-changed={folder}");
    if path.join("libfancy.so").exists() && !is_static() {
        link(folder, "dylib", "fancy");
    } else if path.join("libfancy.a").exists() {
        link(folder, "static", "fancy");
    } else if path.join("libfancy_host.a").exists() {
        let kit = var("FANCY_KIT")
            .map_err(|_| "FANCY_KIT is to name the folder of liblibc_c.a of the Rattle kit")?;
        println!("cargo:rerun-if-changed={folder}/libfancy_host.a");
        link(folder, "static", "fancy_host");
        link(&kit, "static", "libc_c");
    } else {
        return Err(format!(
            "FANCY_LIBRARY is {folder}, and no library lies there"
        ));
    }
    Ok(())
}

fn link_by_pkg_config() -> Result<(), String> {
    let asked = Command::new("pkg-config")
        .args(["--variable=libdir", "fancy"])
        .output();
    let answer = asked.map_err(|error| format!("pkg-config does not start: {error}"))?;
    if !answer.status.success() {
        return Err(String::from_utf8_lossy(&answer.stderr).into_owned());
    }
    link_from(String::from_utf8_lossy(&answer.stdout).trim())
}
