//! Chooses what the functions are compiled of: by the target, or by `SEC1_LIBRARY`, as the README
//! says.

use std::path::{Path, PathBuf};
use std::process::Command;
use std::{env, fs};

fn main() -> Result<(), String> {
    println!("cargo::rerun-if-changed=build.rs");
    println!("cargo::rerun-if-env-changed=SEC1_LIBRARY");
    println!("cargo::rustc-check-cfg=cfg(sec1_library, values(\"assembly\", \"rust\"))");
    println!("cargo::rustc-check-cfg=cfg(sec1_without_links)");
    let automatic = if has_assembly() { "assembly" } else { "rust" };
    let library = env::var("SEC1_LIBRARY").unwrap_or_else(|_| automatic.into());
    match library.as_str() {
        "assembly" if has_assembly() => {}
        "rust" if target("POINTER_WIDTH") == "64" => find_source(),
        "installed" => return link(),
        "rust" => return Err(refusal("libsec1 is for targets with pointers of 64 bits")),
        "assembly" => return Err(refusal("the assembly is for Linux on x86-64 and aarch64")),
        _ => return Err(format!("SEC1_LIBRARY is {library}, not assembly, rust or installed")),
    }
    println!("cargo::rustc-cfg=sec1_library=\"{library}\"");
    Ok(())
}

/// Says whether `src/sec1.rs` is a link that has become a file with a path in it, as Git makes of it
/// on Windows.
fn find_source() {
    if fs::metadata("src/sec1.rs").is_ok_and(|it| it.is_file() && it.len() < 100) {
        println!("cargo::rustc-cfg=sec1_without_links");
    }
}

/// Returns what cargo says of the target.
fn target(name: &str) -> String {
    env::var(format!("CARGO_CFG_TARGET_{name}")).unwrap_or_default()
}

/// Returns `true` if there is assembly for the target. Android is no Linux for it.
fn has_assembly() -> bool {
    let is = |arch, endian| target("ARCH") == arch && target("ENDIAN") == endian;
    let is_processor = is("x86_64", "little") || is("aarch64", "little");
    is_processor && target("POINTER_WIDTH") == "64" && target("OS") == "linux"
}

fn refusal(reason: &str) -> String {
    format!("{reason}, not for {}", env::var("TARGET").unwrap_or_default())
}

/// Links the installed library.
fn link() -> Result<(), String> {
    println!("cargo::rerun-if-env-changed=SEC1_LIB_DIR");
    println!("cargo::rerun-if-env-changed=PKG_CONFIG");
    println!("cargo::rerun-if-env-changed=PKG_CONFIG_PATH");
    let folder = match env::var_os("SEC1_LIB_DIR") {
        Some(folder) => PathBuf::from(folder),
        None => {
            installed().ok_or("no library: install libsec1, or name its folder in SEC1_LIB_DIR")?
        }
    };
    let library = ["libsec1.so", "libsec1.a"].iter().any(|name| is_file(&folder.join(name)));
    if !library {
        return Err(format!("there is no libsec1.so and no libsec1.a in {}", folder.display()));
    }
    println!("cargo::rustc-link-search=native={}", folder.display());
    println!("cargo::rustc-link-lib=sec1");
    Ok(())
}

/// Returns `true` if there is such a file, which cargo then watches.
fn is_file(path: &Path) -> bool {
    println!("cargo::rerun-if-changed={}", path.display());
    fs::metadata(path).is_ok_and(|it| it.is_file())
}

/// Returns the folder of the installed library of this version, as pkg-config knows it.
fn installed() -> Option<PathBuf> {
    let version = format!("sec1 = {}", env::var("CARGO_PKG_VERSION").ok()?);
    let command = env::var_os("PKG_CONFIG").unwrap_or_else(|| "pkg-config".into());
    let output =
        Command::new(command).args(["--variable=libdir", version.as_str()]).output().ok()?;
    let folder = String::from_utf8(output.stdout).ok()?;
    let folder = folder.trim();
    (output.status.success() && !folder.is_empty()).then(|| PathBuf::from(folder))
}
