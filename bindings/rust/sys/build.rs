//! Finds the library: the assembly for the target, or the archive that `CADWRELCH_CORE` names. It compiles nothing, and proves nothing.
use std::env;
use std::fs;
use std::path::{Path, PathBuf};
use std::process::exit;

fn main() {
    println!("cargo::rerun-if-env-changed=CADWRELCH_CORE");
    println!("cargo::rustc-check-cfg=cfg(archive)");
    println!("cargo::rustc-check-cfg=cfg(assembly)");
    let found = match env::var_os("CADWRELCH_CORE") {
        Some(path) => link_archive(Path::new(&path)),
        None => find_assembly(),
    };
    if let Err(why) = found {
        println!("cargo::error={why}");
        exit(1);
    }
}

fn link_archive(named: &Path) -> Result<(), String> {
    let path = match named.canonicalize() {
        Ok(path) if path.ends_with("libcadwrelch.a") && path.is_file() => path,
        _ => {
            return Err(format!(
                "CADWRELCH_CORE is {}; it is to be the path of a file libcadwrelch.a",
                named.display()
            ));
        }
    };
    let bytes = fs::read(&path).map_err(|error| format!("{}: {error}", path.display()))?;
    if !bytes.starts_with(b"!<arch>\n") {
        return Err(format!("{} is no archive of a library", path.display()));
    }
    // Which version it is can be asked at run time alone; before 0.2.0 there was nothing to ask.
    if !bytes.windows(10).any(|word| word == b"jc_version") {
        return Err(format!(
            "{} has no jc_version: it is older than 0.2.0, and this crate is of {}",
            path.display(),
            env!("CARGO_PKG_VERSION")
        ));
    }
    let folder = path.parent().expect("a file lies in a folder");
    println!("cargo::rerun-if-changed={}", path.display());
    println!("cargo::rustc-link-search=native={}", folder.display());
    println!("cargo::rustc-link-lib=static=cadwrelch");
    println!("cargo::rustc-cfg=archive");
    Ok(())
}

/// For a target that has none the crate doesn't compile, and says which ones there are.
fn find_assembly() -> Result<(), String> {
    let Some(name) = assembly_name() else {
        return Ok(());
    };
    let here = PathBuf::from(env::var_os("CARGO_MANIFEST_DIR").expect("cargo sets it"));
    // In a package; and in the repository, where all languages share it.
    let folders = [here.join("core"), here.join("../../core")];
    let mut paths = folders.iter().map(|folder| folder.join(name));
    match paths.find(|path| path.is_file()) {
        Some(path) => {
            println!("cargo::rerun-if-changed={}", path.display());
            println!("cargo::rustc-env=CADWRELCH_ASSEMBLY={}", path.display());
            println!("cargo::rustc-cfg=assembly");
            Ok(())
        }
        None => Err(format!(
            "the core for this target is missing: there is no {name} in {} nor in {}; or set CADWRELCH_CORE to the path of a libcadwrelch.a",
            folders[0].display(),
            folders[1].display()
        )),
    }
}

fn assembly_name() -> Option<&'static str> {
    let target = |what| env::var(format!("CARGO_CFG_TARGET_{what}")).unwrap_or_default();
    if target("OS") != "linux" || target("POINTER_WIDTH") != "64" || target("ENDIAN") != "little" {
        return None;
    }
    match target("ARCH").as_str() {
        "x86_64" => Some("cadwrelch.s"),
        "aarch64" => Some("cadwrelch_aarch64.s"),
        _ => None,
    }
}
