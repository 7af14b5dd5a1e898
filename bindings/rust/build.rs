//! Finds the C library: in the folder that `BB_MEMORY_LIB_DIR` names, otherwise by the first
//! `bb_memory.pc` in the folders of `PKG_CONFIG_PATH`, in the release in the repository's `dist`,
//! and in the folders where systems keep such files. Links the archive if there is one, and with
//! `BB_MEMORY_LINK=dylib` the shared library. Fails if no library is found. With `DOCS_RS` set,
//! looks for no library: `cargo check` and `cargo doc` need none.
use std::env;
use std::fs;
use std::iter;
use std::path::{Path, PathBuf};
use std::process::Command;

/// The folders where systems keep libraries for themselves.
const NATIVE_FOLDERS: [&str; 3] = ["/usr/local/lib", "/usr/lib", "/usr/lib64"];

/// The ABI of this crate's declarations: `BB_ABI` of the header.
const ABI: &str = "7";

fn main() {
    for name in ["BB_MEMORY_LIB_DIR", "BB_MEMORY_LINK", "PKG_CONFIG_PATH", "DOCS_RS"] {
        println!("cargo::rerun-if-env-changed={name}");
    }
    if env::var_os("DOCS_RS").is_some() {
        return;
    }
    let named = env::var_os("BB_MEMORY_LIB_DIR").map(PathBuf::from);
    let Some(folder) = named.or_else(folder_by_pkg_config) else {
        println!(
            "cargo::error=the C library bb_memory isn't found. Unpack or install its release below \
             DIR, and set BB_MEMORY_LIB_DIR=DIR/lib or PKG_CONFIG_PATH=DIR/lib/pkgconfig. To check \
             or document without it, set DOCS_RS=1."
        );
        return;
    };
    let shared = env::var("BB_MEMORY_LINK").is_ok_and(|word| word == "dylib");
    let archive = folder.join("libbb_memory.a");
    let kind = if !shared && archive.exists() {
        println!("cargo::rerun-if-changed={}", archive.display());
        "static"
    } else {
        "dylib"
    };
    println!("cargo::rustc-link-search=native={}", folder.display());
    println!("cargo::rustc-link-lib={kind}=bb_memory");
}

/// Returns the folder of the library that the first `bb_memory.pc` names.
fn folder_by_pkg_config() -> Option<PathBuf> {
    let path = env::var_os("PKG_CONFIG_PATH").unwrap_or_default();
    let folders = env::split_paths(&path)
        .chain(iter::once_with(unpacked_release).flatten())
        .chain(iter::once_with(standard_folders).flatten());
    folders.map(|folder| folder.join("bb_memory.pc")).find_map(|file| {
        let text = fs::read_to_string(&file).ok()?;
        println!("cargo::rerun-if-changed={}", file.display());
        Some(folder_of(&file, &text))
    })
}

/// Returns what Cargo says of the target, such as `arch`, or an empty text.
fn target(what: &str) -> String {
    env::var(format!("CARGO_CFG_TARGET_{what}")).unwrap_or_default()
}

/// Returns the folders where systems keep the files of `pkg-config` for the target. If the target
/// isn't the system that builds, the folders have its name.
fn standard_folders() -> Vec<PathBuf> {
    let (arch, libc) = (target("ARCH"), target("ENV"));
    let is_native = env::var("HOST").ok() == env::var("TARGET").ok();
    let named = ["/usr/local/lib", "/usr/lib"].map(|lib| format!("{lib}/{arch}-linux-{libc}"));
    let native = NATIVE_FOLDERS.iter().filter(|_| is_native).map(|&lib| lib.to_owned());
    let other = format!("/usr/{arch}-linux-{libc}/lib");
    native.chain(named).chain([other]).map(|lib| PathBuf::from(lib).join("pkgconfig")).collect()
}

/// Unpacks the release of this version for the target into the build's own folder, if the repository
/// around this crate has it. Its archive is for glibc and for musl.
fn unpacked_release() -> Option<PathBuf> {
    let (arch, version) = (target("ARCH"), env!("CARGO_PKG_VERSION"));
    let release = format!("bb_memory-{version}-{arch}-linux");
    let archive = format!("{}/../../dist/{release}.tar.gz", env!("CARGO_MANIFEST_DIR"));
    let fits = target("OS") == "linux"
        && target("POINTER_WIDTH") == "64"
        && target("ENDIAN") == "little"
        && matches!(target("ENV").as_str(), "gnu" | "musl");
    if !fits || !Path::new(&archive).exists() {
        return None;
    }
    println!("cargo::rerun-if-changed={archive}");
    let built = PathBuf::from(env::var_os("OUT_DIR")?);
    let tar = Command::new("tar").arg("-xzf").arg(&archive).arg("-C").arg(&built).status();
    assert!(tar.is_ok_and(|it| it.success()), "{archive} isn't unpacked by tar");
    Some(built.join(release).join("lib/pkgconfig"))
}

/// Returns the folder that this text of `bb_memory.pc` names. The library has to have this crate's
/// ABI, and must not be older than the crate.
fn folder_of(file: &Path, text: &str) -> PathBuf {
    let value = |name: &str| {
        let found = text.lines().find_map(|line| line.strip_prefix(name));
        found.unwrap_or_else(|| panic!("{}: no line {name}", file.display()))
    };
    let numbers =
        |version: &str| version.split('.').map(|it| it.parse().ok()).collect::<Option<Vec<u32>>>();
    let (abi, version, own) = (value("abi="), value("Version: "), env!("CARGO_PKG_VERSION"));
    assert!(
        abi == ABI && numbers(version) >= numbers(own),
        "{}: version {version} of ABI {abi}, but this crate needs {own} or a later one \
         of ABI {ABI}",
        file.display()
    );
    let here = file.parent().unwrap_or(Path::new(".")).display().to_string();
    let prefix = value("prefix=").replace("${pcfiledir}", &here);
    PathBuf::from(value("libdir=").replace("${prefix}", &prefix))
}
