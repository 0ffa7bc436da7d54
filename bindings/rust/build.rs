//! Finds the C library: in the folder of `DATASKETCHES_DIR`, beside this crate, or by `pkg-config`. Links it, and checks
//! that it has the calls of this crate.

use std::env;
use std::fs;
use std::path::{Path, PathBuf};
use std::process::{self, Command};

/// The first version of the C library that has all calls of `src/sys.rs`.
const VERSION: &str = "0.3";

/// The newest call of `src/sys.rs`.
const NEWEST_CALL: &str = "ds_update";

const HELP: &str = "\
the C library of datasketches was not found, or cannot be used. Do one of these:
  - on Debian for x86-64, install its packages: apt install ./libdatasketches0_*.deb ./libdatasketches-dev_*.deb pkg-config
  - build it with `bindings/c/build.sh FOLDER`, and set DATASKETCHES_DIR to that folder
  - unpack the tarball of a release, and use the crate in its folder `rust`
DATASKETCHES_DIR is a folder that has libdatasketches.a or libdatasketches.so, or a folder `lib` with it. A relative
one begins where cargo was started, or else at the program. Without it, pkg-config is asked for `datasketches`: for a
library in a folder of its own, add that folder's lib/pkgconfig to PKG_CONFIG_PATH. DATASKETCHES_LINK chooses `static`
or `shared`.";

fn fail(reason: &str) -> ! {
    eprintln!("error: {}\n{}", reason, HELP);
    process::exit(1)
}

/// Returns an environment variable, and has cargo run this again if it changes.
fn variable(name: &str) -> Option<String> {
    println!("cargo:rerun-if-env-changed={}", name);
    env::var(name).ok().filter(|value| !value.is_empty())
}

/// Returns the kinds of libraries that may be linked, the first choice first: the word for cargo and the file.
fn kinds() -> Vec<(&'static str, &'static str)> {
    let (archive, shared) = (("static", "libdatasketches.a"), ("dylib", "libdatasketches.so"));
    match variable("DATASKETCHES_LINK").as_deref() {
        None => vec![archive, shared],
        Some("static") => vec![archive],
        Some("shared") => vec![shared],
        Some(other) => fail(&format!("DATASKETCHES_LINK is {}, and not `static` or `shared`", other)),
    }
}

/// Returns the version of the library in a folder, by a program that is linked with it and calls it.
fn version_of(folder: &Path, kind: &str) -> Result<String, String> {
    let out = PathBuf::from(env::var_os("OUT_DIR").unwrap_or_default());
    let (source, program) = (out.join("probe.rs"), out.join("probe"));
    let text = format!(
        "extern \"C\" {{ fn ds_version() -> *const std::os::raw::c_char; fn {call}(); }}\n\
         fn main() {{\n    let call: unsafe extern \"C\" fn() = {call};\n    assert!(call as usize != 0);\n    \
         println!(\"{{}}\", unsafe {{ std::ffi::CStr::from_ptr(ds_version()) }}.to_string_lossy());\n}}\n",
        call = NEWEST_CALL
    );
    fs::write(&source, text).map_err(|error| error.to_string())?;
    let compiler = env::var_os("RUSTC").unwrap_or_else(|| "rustc".into());
    let compiled = Command::new(compiler)
        .args(["--edition", "2021", "-A", "warnings", "-o"])
        .arg(&program)
        .arg("-L")
        .arg(folder)
        .arg(format!("-l{}=datasketches", kind))
        .arg(&source)
        .output()
        .map_err(|error| error.to_string())?;
    if !compiled.status.success() {
        let said = String::from_utf8_lossy(&compiled.stderr).into_owned();
        let why = if said.contains(NEWEST_CALL) {
            format!("has no call {}, so it is too old", NEWEST_CALL)
        } else {
            said
        };
        return Err(why);
    }
    let ran =
        Command::new(&program).env("LD_LIBRARY_PATH", folder).output().map_err(|error| error.to_string())?;
    if !ran.status.success() {
        return Err(String::from_utf8_lossy(&ran.stderr).into_owned());
    }
    Ok(String::from_utf8_lossy(&ran.stdout).trim().to_owned())
}

/// Returns whether a version is `VERSION` or later.
fn is_new_enough(version: &str) -> bool {
    let numbers = |text: &str| text.split('.').map(|part| part.parse().unwrap_or(0)).collect::<Vec<u64>>();
    numbers(version) >= numbers(VERSION)
}

/// Links the library of a folder, and checks it. Returns whether there is one.
fn link(folder: &Path) -> bool {
    let (kind, file) = match kinds().into_iter().find(|(_, file)| folder.join(file).is_file()) {
        Some(found) => found,
        None => return false,
    };
    println!("cargo:rerun-if-changed={}", folder.join(file).display());
    // A program for another machine is not run here.
    if env::var_os("HOST") == env::var_os("TARGET") {
        match version_of(folder, kind) {
            Ok(version) if is_new_enough(&version) => (),
            Ok(version) => fail(&format!(
                "{} is version {}, and not {} or later",
                folder.join(file).display(),
                version,
                VERSION
            )),
            Err(why) => fail(&format!("{} {}", folder.join(file).display(), why)),
        }
    }
    println!("cargo:rustc-link-search=native={}", folder.display());
    println!("cargo:rustc-link-lib={}=datasketches", kind);
    // The build script of a program that names this crate in its `Cargo.toml` reads it as DEP_DATASKETCHES_LIBDIR.
    println!("cargo:libdir={}", folder.display());
    true
}

/// Runs `pkg-config` and returns what it prints, or nothing if it fails.
fn pkg_config(arguments: &[&str]) -> Option<String> {
    let program = variable("PKG_CONFIG").unwrap_or_else(|| "pkg-config".into());
    let output = Command::new(program).args(arguments).output().ok()?;
    let text = String::from_utf8(output.stdout).ok()?;
    if output.status.success() {
        Some(text.trim().to_owned())
    } else {
        None
    }
}

/// Returns the folders that a value of `DATASKETCHES_DIR` may mean. A build script runs in the folder of its own crate,
/// so a relative one is looked up where cargo was started and in the program's folder.
fn folders(value: &str) -> Vec<PathBuf> {
    let given = PathBuf::from(value);
    if given.is_absolute() {
        return vec![given];
    }
    let out = PathBuf::from(env::var_os("OUT_DIR").unwrap_or_default());
    let program = out.ancestors().find(|folder| folder.join("Cargo.lock").is_file()).map(Path::to_owned);
    variable("PWD").map(PathBuf::from).into_iter().chain(program).map(|folder| folder.join(&given)).collect()
}

fn main() {
    println!("cargo:rerun-if-changed=build.rs");
    if let Some(value) = variable("DATASKETCHES_DIR") {
        if !folders(&value).iter().any(|folder| link(folder) || link(&folder.join("lib"))) {
            fail(&format!("DATASKETCHES_DIR is {}, which has no library", value));
        }
        return;
    }
    // In the tarball of a release, the library is in the folder `lib` beside this crate's.
    let crate_folder = PathBuf::from(env::var_os("CARGO_MANIFEST_DIR").unwrap_or_default());
    if link(&crate_folder.join("../lib")) {
        return;
    }
    for name in ["PKG_CONFIG_PATH", "PKG_CONFIG_LIBDIR"] {
        let _ = variable(name);
    }
    let wanted = format!("--atleast-version={}", VERSION);
    if pkg_config(&[&wanted, "datasketches"]).is_none() {
        fail(&format!("pkg-config does not know datasketches {} or later", VERSION));
    }
    match pkg_config(&["--variable=libdir", "datasketches"]) {
        Some(folder) if link(Path::new(&folder)) => (),
        _ => fail("the folder that pkg-config names has no library"),
    }
}
