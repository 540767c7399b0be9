//! Finds the C library and says how it is linked: by `ERTIME_LIB_DIR`, or by the pkg-config of the target.
use std::env;
use std::error::Error;
use std::path::{Path, PathBuf};
use std::process::Command;

type Found<T> = Result<T, Box<dyn Error>>;

fn main() -> Found<()> {
    println!("cargo:rerun-if-changed=build.rs");
    if variable("DOCS_RS").is_some() {
        return Ok(()); // the documentation links nothing
    }
    let target = env::var("TARGET")?;
    let mut libraries = vec!["ertime"];
    if env::var_os("CARGO_FEATURE_TEXT").is_some() {
        libraries.push("ertime_text");
    }
    let folder = match of_target("ERTIME_LIB_DIR", &target) {
        Some(folder) => PathBuf::from(folder),
        None => by_pkg_config(&target)?,
    };
    println!("cargo:rustc-link-search=native={}", folder.display());
    for library in libraries {
        link(&folder, library, &target)?;
    }
    // For build scripts of crates that depend on this one directly: DEP_ERTIME_LIB_DIR.
    println!("cargo:lib_dir={}", folder.display());
    Ok(())
}

/// Links the archive if it is there, and the shared library otherwise, or if `ERTIME_DYNAMIC` asks for it.
fn link(folder: &Path, library: &str, target: &str) -> Found<()> {
    let is_asked = of_target("ERTIME_DYNAMIC", target).is_some_and(|it| it != "0");
    let there = |ending: &str| folder.join(format!("lib{library}.{ending}")).is_file();
    if there("a") && !(is_asked && there("so")) {
        println!("cargo:rustc-link-lib=static={library}");
    } else if there("so") {
        // No run path is set: the program finds the library as each other shared library.
        println!("cargo:rustc-link-lib=dylib={library}");
    } else {
        let where_ = folder.display();
        return Err(format!("neither lib{library}.a nor lib{library}.so is in {where_}").into());
    }
    for ending in ["a", "so"] {
        let file = folder.join(format!("lib{library}.{ending}"));
        println!("cargo:rerun-if-changed={}", file.display());
    }
    Ok(())
}

/// The folder in which pkg-config finds the library.
fn by_pkg_config(target: &str) -> Found<PathBuf> {
    let program = pkg_config(target)?;
    let ran = Command::new(&program)
        .args(["--variable=libdir", "ertime"])
        .output()
        .map_err(|why| missing(&format!("{program} did not run: {why}")))?;
    if !ran.status.success() {
        let said = String::from_utf8_lossy(&ran.stderr);
        return Err(missing(&format!("{program} does not find ertime: {said}")).into());
    }
    let folder = String::from_utf8(ran.stdout)?.trim().to_string();
    match variable("PKG_CONFIG_SYSROOT_DIR") {
        Some(root) if !folder.starts_with(&root) => Ok(PathBuf::from(format!("{root}{folder}"))),
        _ => Ok(PathBuf::from(folder)),
    }
}

/// The pkg-config of the target: `PKG_CONFIG_<TARGET>` or `PKG_CONFIG`, or when cross compiling the one whose name begins with
/// the target's, as Debian has it. The host's is asked for another target only if its variables say that it is set up for that.
fn pkg_config(target: &str) -> Found<String> {
    if let Some(program) = of_target("PKG_CONFIG", target) {
        return Ok(program);
    }
    for name in ["PKG_CONFIG_PATH", "PKG_CONFIG_LIBDIR"] {
        variable(name);
    }
    if target == env::var("HOST")? {
        return Ok("pkg-config".to_string());
    }
    let cross = format!("{}-pkg-config", target.replace("-unknown-", "-"));
    if Command::new(&cross).arg("--version").output().is_ok_and(|ran| ran.status.success()) {
        return Ok(cross);
    }
    let is_set = |name: &str| variable(name).is_some_and(|it| !it.is_empty() && it != "0");
    if ["PKG_CONFIG_ALLOW_CROSS", "PKG_CONFIG_SYSROOT_DIR", "PKG_CONFIG_LIBDIR"].into_iter().any(is_set) {
        return Ok("pkg-config".to_string());
    }
    Err(missing(&format!("{cross} did not run, and pkg-config is that of another machine than {target}")).into())
}

fn missing(why: &str) -> String {
    format!("{why}\n  Install the C library (make install), or let ERTIME_LIB_DIR name the folder of libertime.a.")
}

/// `NAME_<target>`, with the target's hyphens as underscores, or else `NAME`.
fn of_target(name: &str, target: &str) -> Option<String> {
    variable(&format!("{name}_{}", target.replace('-', "_"))).or_else(|| variable(name))
}

/// A variable of the environment. The script runs again when it changes.
fn variable(name: &str) -> Option<String> {
    println!("cargo:rerun-if-env-changed={name}");
    env::var(name).ok()
}
