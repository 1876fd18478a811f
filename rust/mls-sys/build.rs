//! Finds libmls: in the folder that MLS_LIB_DIR names, or else by pkg-config. A library whose `mls.pc` names another
//! minor version than this crate's is refused.
use std::env;
use std::fs;
use std::path::Path;
use std::process::Command;

const FOLDER: &str = "MLS_LIB_DIR";
/// `static` or `dylib`: which library is linked. Unset, it is the static one of MLS_LIB_DIR where that has one, and the
/// shared one that pkg-config names.
const KIND: &str = "MLS_LIB_KIND";

fn main() {
    for name in [FOLDER, KIND, "PKG_CONFIG", "PKG_CONFIG_PATH", "PKG_CONFIG_LIBDIR", "PKG_CONFIG_SYSROOT_DIR"] {
        println!("cargo:rerun-if-env-changed={name}");
    }
    let linked = match env::var(FOLDER) {
        Ok(folder) => link_in(&folder),
        Err(_) => link_by_pkg_config(),
    };
    if let Err(fault) = linked {
        eprintln!("mls-sys: {fault}");
        std::process::exit(1);
    }
}

/// The kind of library that is asked for.
fn kind_asked() -> Result<Option<String>, String> {
    match env::var(KIND) {
        Err(_) => Ok(None),
        Ok(kind) if kind == "static" || kind == "dylib" => Ok(Some(kind)),
        Ok(kind) => Err(format!("{KIND} is {kind}, and neither static nor dylib")),
    }
}

/// Refuses a version of the library, MAJOR.MINOR, that isn't this crate's. The place is that of the file that names it.
fn is_wanted(found: &str, place: &str) -> Result<(), String> {
    let wanted = concat!(env!("CARGO_PKG_VERSION_MAJOR"), ".", env!("CARGO_PKG_VERSION_MINOR"));
    if found == wanted {
        Ok(())
    } else {
        Err(format!("{place}: libmls has version {found}, and this crate wants {wanted}"))
    }
}

fn link_in(folder: &str) -> Result<(), String> {
    let file_of = |kind: &str| Path::new(folder).join(if kind == "static" { "libmls.a" } else { "libmls.so" });
    if !Path::new(folder).is_absolute() {
        return Err(format!("{FOLDER} is {folder}, and no absolute path"));
    }
    let first = if file_of("static").exists() { "static" } else { "dylib" };
    let kind = kind_asked()?.unwrap_or_else(|| first.to_string());
    let file = file_of(&kind);
    if !file.exists() {
        return Err(format!("{FOLDER} is {folder}, which has no {}", file.display()));
    }
    let described = Path::new(folder).join("pkgconfig/mls.pc");
    if let Ok(text) = fs::read_to_string(&described) {
        let found = text.lines().find_map(|line| line.strip_prefix("Version: "));
        is_wanted(found.unwrap_or("none"), &described.display().to_string())?;
    }
    println!("cargo:rerun-if-changed={}", file.display());
    println!("cargo:rerun-if-changed={}", described.display());
    println!("cargo:rustc-link-search=native={folder}");
    println!("cargo:rustc-link-lib={kind}=mls");
    Ok(())
}

fn link_by_pkg_config() -> Result<(), String> {
    let kind = kind_asked()?.unwrap_or_else(|| "dylib".to_string());
    let command = env::var("PKG_CONFIG").unwrap_or_else(|_| "pkg-config".to_string());
    let help = format!("set {FOLDER} to the folder of libmls, or PKG_CONFIG_PATH to that of mls.pc");
    let done = Command::new(&command).args(["--libs", "mls"]).output();
    let done = done.map_err(|error| format!("{command}: {error}: {help}"))?;
    if !done.status.success() {
        return Err(format!("{}{help}", String::from_utf8_lossy(&done.stderr)));
    }
    let told = |word: &str| Command::new(&command).args([word, "mls"]).output();
    let told = |word| told(word).map_or(String::new(), |told| String::from_utf8_lossy(&told.stdout).trim().to_string());
    is_wanted(&told("--modversion"), &format!("{}/mls.pc", told("--variable=pcfiledir")))?;
    for word in String::from_utf8_lossy(&done.stdout).split_whitespace() {
        if let Some(folder) = word.strip_prefix("-L") {
            println!("cargo:rustc-link-search=native={folder}");
        } else if let Some(library) = word.strip_prefix("-l") {
            println!("cargo:rustc-link-lib={kind}={library}");
        }
    }
    Ok(())
}
