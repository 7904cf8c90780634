//! Finds libvaxembro.a: in the folder that VAXEMBRO_LIB_DIR names, else in target/staticlib of the repository, else where pkg-config says.
use std::path::{Path, PathBuf};
use std::process::Command;

const HOW: &str = "bindings/archive.sh makes it in target/staticlib of the repository; bindings/install.sh puts it where pkg-config finds it; \
                   or VAXEMBRO_LIB_DIR names its folder, by its whole path";

fn main() {
    for name in ["VAXEMBRO_LIB_DIR", "PKG_CONFIG_PATH", "PKG_CONFIG_LIBDIR"] {
        println!("cargo:rerun-if-env-changed={name}");
    }
    match folder() {
        Ok(folder) => {
            println!("cargo:rerun-if-changed={}", folder.join("libvaxembro.a").display());
            println!("cargo:rustc-link-search=native={}", folder.display());
        }
        Err(why) => {
            eprintln!("{why}: {HOW}");
            std::process::exit(1);
        }
    }
}

fn folder() -> Result<PathBuf, String> {
    if let Some(named) = std::env::var_os("VAXEMBRO_LIB_DIR") {
        let named = PathBuf::from(named);
        let missing = format!("no libvaxembro.a in {} (VAXEMBRO_LIB_DIR)", named.display());
        return Some(named).filter(|f| f.is_absolute() && has_archive(f)).ok_or(missing);
    }
    let package = std::env::var_os("CARGO_MANIFEST_DIR").unwrap_or_default();
    let made = Path::new(&package).join("../../target/staticlib");
    if has_archive(&made) {
        return Ok(made);
    }
    installed().filter(|f| has_archive(f)).ok_or("no libvaxembro.a was found".into())
}

fn has_archive(folder: &Path) -> bool {
    folder.join("libvaxembro.a").is_file()
}

// The folder that pkg-config tells, where there is a pkg-config and it knows the library.
fn installed() -> Option<PathBuf> {
    let asked = Command::new("pkg-config").args(["--variable=libdir", "vaxembro"]).output().ok()?;
    let told = String::from_utf8(asked.stdout).ok()?;
    asked.status.success().then(|| told.trim_end().into())
}
