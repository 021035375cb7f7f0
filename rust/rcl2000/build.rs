//! Finds the proved library's archive, sees that it belongs to this crate, and links it.
//!
//! What belongs together is settled here and not when the calls are made: the archive is linked
//! statically, so that the one which is tried is the one which is used.

use std::env;
use std::ffi::OsString;
use std::fs;
use std::path::{Path, PathBuf};
use std::process::{exit, Command, Output};
use std::time::SystemTime;

/// Names another folder to look in, relative to the folder where cargo was called.
const FOLDER: &str = "RCL2000_LIB_DIR";

const ARCHIVE: &str = "librcl2000.a";

/// The functions that the archive must have.
const CALLS: [&str; 10] = [
    "reduce",
    "rebuild",
    "judge",
    "judge_page",
    "rank_step",
    "forecast",
    "sessions_start",
    "session_open",
    "session_close",
    "sheet_line",
];

const HOW: &str = "run `bin/archive` at the root of the repository";

fn main() {
    println!("cargo:rerun-if-env-changed={FOLDER}");
    println!("cargo:rerun-if-changed=build.rs");
    println!("cargo:rerun-if-changed=probe.rs");
    println!("cargo:rerun-if-changed=src/library.rs");
    if let Err(message) = linked() {
        eprintln!("rcl2000: {message}");
        exit(1);
    }
}

fn linked() -> Result<(), String> {
    let (arch, os) = (set("CARGO_CFG_TARGET_ARCH"), set("CARGO_CFG_TARGET_OS"));
    if (arch.as_str(), os.as_str()) != ("x86_64", "linux") {
        return Err(format!(
            "the proved library is for x86-64 Linux, not for {arch} {os}"
        ));
    }
    let root = Path::new(&set("CARGO_MANIFEST_DIR")).join("../..");
    let archive = found(&root)?;
    println!("cargo:rerun-if-changed={}", archive.display());
    let unlike = |what: String| format!("{} {what}: {HOW}", archive.display());
    let bytes = fs::read(&archive).map_err(|error| unlike(format!("cannot be read ({error})")))?;
    let names = symbols(&bytes).ok_or_else(|| unlike("is not an archive".to_string()))?;
    for call in CALLS {
        if !names.iter().any(|name| name == call) {
            return Err(unlike(format!("has no function `{call}`")));
        }
    }
    let folder = archive.parent().unwrap_or(&root);
    tried(folder).map_err(|what| unlike(format!("is of another version ({what})")))?;
    if older(&archive, &root) {
        println!(
            "cargo:warning=the library's sources have changed since {ARCHIVE} was written: {HOW}"
        );
    }
    println!("cargo:rustc-link-search=native={}", folder.display());
    println!("cargo:rustc-link-lib=static=rcl2000");
    Ok(())
}

/// A variable that cargo sets for build scripts.
fn set(name: &str) -> String {
    env::var(name).unwrap_or_default()
}

/// The archive: in the folder that `FOLDER` names, else where `bin/archive` writes it.
fn found(root: &Path) -> Result<PathBuf, String> {
    let folders = match env::var_os(FOLDER) {
        Some(folder) => from_caller(folder),
        None => vec![root.join("target/staticlib")],
    };
    let archives: Vec<PathBuf> = folders.iter().map(|folder| folder.join(ARCHIVE)).collect();
    if let Some(archive) = archives.iter().find(|archive| archive.is_file()) {
        return archive
            .canonicalize()
            .map_err(|error| format!("{}: {error}", archive.display()));
    }
    let looked: Vec<String> = archives.iter().map(|a| a.display().to_string()).collect();
    Err(format!(
        "{} is missing: {HOW}, or name the folder that has it in {FOLDER}",
        looked.join(" or ")
    ))
}

/// A build script runs in its own crate's folder. A relative folder is meant from where cargo was
/// called, which the shell leaves in `PWD`; failing that from the workspace that is being built.
fn from_caller(folder: OsString) -> Vec<PathBuf> {
    let folder = PathBuf::from(folder);
    if folder.is_absolute() {
        return vec![folder];
    }
    println!("cargo:rerun-if-env-changed=PWD");
    let called = env::var_os("PWD").map(PathBuf::from);
    let out = PathBuf::from(set("OUT_DIR"));
    let target = out.ancestors().find(|folder| folder.ends_with("target"));
    let workspace = target.and_then(Path::parent).map(Path::to_path_buf);
    let mut places: Vec<PathBuf> = called.into_iter().chain(workspace).collect();
    places.dedup();
    places.iter().map(|place| place.join(&folder)).collect()
}

/// The names in the index of an archive: a first member `/` with a count, as many offsets, each of
/// 4 bytes with the highest first, and the names, each before a zero byte.
fn symbols(archive: &[u8]) -> Option<Vec<String>> {
    let members = archive.strip_prefix(b"!<arch>\n")?;
    let (header, rest) = (members.get(..60)?, members.get(60..)?);
    if !header.starts_with(b"/ ") {
        return None;
    }
    let size = String::from_utf8_lossy(&header[48..58]);
    let index = rest.get(..size.trim().parse().ok()?)?;
    let count = u32::from_be_bytes(index.get(..4)?.try_into().ok()?) as usize;
    let names = index.get(4 + 4 * count..)?.split(|&byte| byte == 0);
    let names = names.take(count).map(String::from_utf8_lossy);
    Some(names.map(String::from).collect())
}

/// Whether the archive answers as this version of the crate says, or what it does otherwise. Where
/// that cannot be tried here, it is said and passes.
fn tried(folder: &Path) -> Result<(), String> {
    let output = match probed(folder) {
        Ok(output) if output.status.success() => return Ok(()),
        Ok(output) => output,
        Err(why) => {
            println!("cargo:warning={ARCHIVE} is not tried: {why}");
            return Ok(());
        }
    };
    let said = String::from_utf8_lossy(&output.stdout);
    match said.trim() {
        "" => Err(output.status.to_string()),
        said => Err(said.to_string()),
    }
}

/// Links the archive into `probe.rs` and runs that, or says why it cannot be run.
fn probed(folder: &Path) -> Result<Output, String> {
    if set("HOST") != set("TARGET") {
        return Err("its programs do not run on this machine".to_string());
    }
    let probe = Path::new(&set("OUT_DIR")).join("probe");
    let mut compiler = Command::new(env::var_os("RUSTC").unwrap_or_else(|| "rustc".into()));
    compiler.args(["--edition", "2021", "probe.rs", "-l", "static=rcl2000"]);
    compiler.arg("-L").arg(folder).arg("-o").arg(&probe);
    if let Some(linker) = env::var_os("RUSTC_LINKER") {
        let mut option = OsString::from("linker=");
        option.push(linker);
        compiler.arg("-C").arg(option);
    }
    let compiled = compiler.output().map_err(|error| error.to_string())?;
    if !compiled.status.success() {
        let why = String::from_utf8_lossy(&compiled.stderr);
        return Err(why.lines().next().unwrap_or("no reason given").to_string());
    }
    let ran = Command::new(probe).output();
    ran.map_err(|error| error.to_string())
}

/// Whether a source of the library was written after the archive, where both are the repository's.
fn older(archive: &Path, root: &Path) -> bool {
    let written = |path: &Path| path.metadata().and_then(|data| data.modified()).ok();
    let Some(own) = root.canonicalize().ok() else {
        return false;
    };
    let Some(since) = written(archive).filter(|_| archive.starts_with(&own)) else {
        return false;
    };
    sources(&own.join("crates"))
        .iter()
        .filter_map(|source| written(source))
        .any(|time: SystemTime| time > since)
}

/// The sources of the repository's libraries. Cargo runs this script again when one changes.
fn sources(crates: &Path) -> Vec<PathBuf> {
    let entries = |folder: &Path| {
        let entries = fs::read_dir(folder).into_iter().flatten().flatten();
        entries.map(|entry| entry.path()).collect::<Vec<_>>()
    };
    let folders = entries(crates).into_iter().map(|name| name.join("src"));
    let libraries = folders.filter(|folder| folder.join("lib.rt").is_file());
    libraries
        .flat_map(|folder| {
            println!("cargo:rerun-if-changed={}", folder.display());
            entries(&folder)
        })
        .collect()
}
