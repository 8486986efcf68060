//! Finds the library and links it: `libnevgrasi.a` into the program, or else `libnevgrasi.so`.
//!
//! NEVGRASI_LIB names the folder of the library. Without it, `pkg-config` is called, and then the usual folders are
//! searched. NEVGRASI_LINK chooses one of both libraries: `static` or `dylib`.

use std::env;
use std::path::{Path, PathBuf};
use std::process::{exit, Command};

const STATIC: &str = "libnevgrasi.a";
const SHARED: &str = "libnevgrasi.so";
const VARIABLES: [&str; 5] = ["NEVGRASI_LIB", "NEVGRASI_LINK", "PKG_CONFIG", "PKG_CONFIG_PATH", "HOME"];

/// Which library is linked.
#[derive(Clone, Copy)]
enum Link {
    Static,
    Shared,
}

/// Returns the folder that `pkg-config` prints, if it is installed and finds the library.
fn folder_of_pkg_config() -> Option<PathBuf> {
    let command = env::var_os("PKG_CONFIG").unwrap_or_else(|| "pkg-config".into());
    let found = Command::new(command).args(["--variable=libdir", "nevgrasi"]).output().ok()?;
    let folder = String::from_utf8(found.stdout).ok()?;
    (found.status.success() && !folder.trim().is_empty()).then(|| PathBuf::from(folder.trim()))
}

/// Returns the folders to search, in this order.
fn folders() -> Vec<PathBuf> {
    if let Some(folder) = env::var_os("NEVGRASI_LIB") {
        return vec![folder.into()];
    }
    let home = env::var_os("HOME").map(|it| Path::new(&it).join(".local/lib"));
    let usual = ["/usr/local/lib", "/usr/lib"].map(PathBuf::from);
    folder_of_pkg_config().into_iter().chain(home).chain(usual).collect()
}

/// Returns which library to link from a folder, or `None` if it is not there.
fn link_in(folder: &Path, wanted: Option<&str>) -> Option<Link> {
    if wanted != Some("dylib") && folder.join(STATIC).exists() {
        return Some(Link::Static);
    }
    (wanted != Some("static") && folder.join(SHARED).exists()).then_some(Link::Shared)
}

/// Ends the build with an error and what to do.
fn fail(error: &str, help: &str) -> ! {
    eprintln!("error: {error}");
    eprintln!("help: {help}");
    exit(1);
}

fn main() {
    for name in VARIABLES {
        println!("cargo:rerun-if-env-changed={name}");
    }
    let wanted = env::var("NEVGRASI_LINK").ok();
    let wanted = wanted.as_deref();
    if !matches!(wanted, None | Some("static" | "dylib")) {
        fail("NEVGRASI_LINK is neither `static` nor `dylib`", "unset it to link the library that is installed");
    }
    let searched = folders();
    let found = searched.iter().find_map(|folder| Some((folder.canonicalize().ok()?, link_in(folder, wanted)?)));
    let Some((folder, link)) = found else {
        let names = match wanted {
            Some("static") => format!("`{STATIC}`"),
            Some(_) => format!("`{SHARED}`"),
            None => format!("`{STATIC}` or `{SHARED}`"),
        };
        let listed: Vec<String> = searched.iter().map(|it| it.display().to_string()).collect();
        fail(
            &format!("no {names} in {}", listed.join(", ")),
            "install the library with `make install-c PREFIX=~/.local`, or set NEVGRASI_LIB to its folder",
        );
    };
    let folder = folder.display();
    println!("cargo:rustc-link-search=native={folder}");
    println!("cargo:libdir={folder}");
    match link {
        Link::Static => {
            println!("cargo:rerun-if-changed={folder}/{STATIC}");
            println!("cargo:rustc-link-lib=static=nevgrasi");
        }
        Link::Shared => {
            println!("cargo:rustc-link-lib=dylib=nevgrasi");
            println!("cargo:rustc-link-arg=-Wl,-rpath,{folder}");
        }
    }
}
