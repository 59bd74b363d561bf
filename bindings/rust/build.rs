// Finds the library: in $GSYM_LIB_DIR, else by pkg-config; else it says how to have it, and stops. With the feature
// `write` the one that writes files too, which stands beside it, or in target/ of a checkout. README.md has more.
use std::env;
use std::path::{Path, PathBuf};
use std::process::{exit, Command};

/// What cargo is to link from a folder: the archive where it is there, else the shared library.
fn kind(dir: &Path) -> Option<&'static str> {
    if dir.join("libgsym.a").is_file() {
        Some("static")
    } else if dir.join("libgsym.so").is_file() {
        Some("dylib")
    } else {
        None
    }
}

/// A relative folder is meant from where cargo was called, else from the workspace or the package.
fn places(dir: &Path) -> Vec<PathBuf> {
    if dir.is_absolute() {
        return vec![dir.to_path_buf()];
    }
    let mut starts: Vec<PathBuf> = env::var_os("PWD").map(PathBuf::from).into_iter().collect();
    if let Some(out) = env::var_os("OUT_DIR") {
        // the folder that target/ stands in
        starts.extend(Path::new(&out).ancestors().skip(1).map(Path::to_path_buf));
    }
    starts.extend(env::var_os("CARGO_MANIFEST_DIR").map(PathBuf::from));
    starts.iter().map(|start| start.join(dir)).collect()
}

fn link(dir: &Path, kind: &str) {
    // whole, since rustc is called from another folder
    let dir = dir.canonicalize().unwrap_or_else(|_| dir.to_path_buf());
    let library = dir.join(if kind == "static" { "libgsym.a" } else { "libgsym.so" });
    println!("cargo:rerun-if-changed={}", library.display());
    println!("cargo:rustc-link-search=native={}", dir.display());
    println!("cargo:rustc-link-lib={}=gsym", kind);
}

/// The library that writes files, where the other stands, or in a checkout below it.
fn link_writer(dir: &Path) {
    let places = [dir.to_path_buf(), dir.join("target")];
    match places.iter().find(|place| place.join("libgsym_write.a").is_file()) {
        Some(place) => {
            let place = place.canonicalize().unwrap_or_else(|_| place.to_path_buf());
            println!("cargo:rerun-if-changed={}", place.join("libgsym_write.a").display());
            println!("cargo:rustc-link-search=native={}", place.display());
            println!("cargo:rustc-link-lib=static=gsym_write");
        }
        None => fail(&format!("there is no libgsym_write.a at {}, which the feature `write` needs", dir.display())),
    }
}

/// The folders that pkg-config names; none where it knows no gsym, or isn't there.
fn known_to_pkg_config() -> Option<Vec<PathBuf>> {
    let program = env::var_os("PKG_CONFIG").unwrap_or_else(|| "pkg-config".into());
    let ask = |what: &str| Command::new(&program).args([what, "gsym"]).output().ok().filter(|o| o.status.success());
    // a system folder is left out of the flags, and is a variable all the same
    let dir = ask("--variable=libdir")?;
    let text = String::from_utf8(dir.stdout).ok()?;
    Some(vec![PathBuf::from(text.trim())])
}

fn fail(why: &str) -> ! {
    eprintln!("gsym: {}", why);
    eprintln!("gsym: build libgsym (`make` and `make install` in its repository or its archive), and let pkg-config");
    eprintln!("gsym: find it (PKG_CONFIG_PATH), or set GSYM_LIB_DIR to the folder that has libgsym.a");
    exit(1)
}

fn main() {
    for name in ["GSYM_LIB_DIR", "PKG_CONFIG", "PKG_CONFIG_PATH"] {
        println!("cargo:rerun-if-env-changed={}", name);
    }
    println!("cargo:rerun-if-changed=build.rs");
    let places = match env::var_os("GSYM_LIB_DIR") {
        Some(dir) => {
            let places = places(Path::new(&dir));
            if !places.iter().any(|place| kind(place).is_some()) {
                let dir = Path::new(&dir).display();
                fail(&format!("there is no libgsym.a and no libgsym.so in GSYM_LIB_DIR, {}", dir));
            }
            places
        }
        None => known_to_pkg_config().unwrap_or_else(|| fail("pkg-config knows no gsym, and GSYM_LIB_DIR is not set")),
    };
    match places.iter().find_map(|place| kind(place).map(|kind| (place, kind))) {
        Some((place, kind)) => {
            link(place, kind);
            if env::var_os("CARGO_FEATURE_WRITE").is_some() {
                link_writer(place);
            }
        }
        None => fail(&format!("pkg-config names {}, and no libgsym is there", places[0].display())),
    }
}
