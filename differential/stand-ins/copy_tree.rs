//! For the build scripts of the two crates that hold published files: a source tree in the build directory, made of
//! copies of the published files, as they are, and of the stand-ins beside them. (No links: `rt ci` refuses a repository
//! that has some, in a build directory too.)

use std::{
    env, fs, io,
    path::{Path, PathBuf},
};

/// Makes `OUT_DIR/src` from the crate's own `src/` and the published files of `crate_folder`, named from its `src/`.
pub fn copy_tree(crate_folder: &str, published: &[&str]) -> io::Result<()> {
    let own = package_folder().join("src");
    let source = source_folder().join(crate_folder).join("src");
    let tree = PathBuf::from(env::var_os("OUT_DIR").unwrap()).join("src");
    if tree.exists() {
        fs::remove_dir_all(&tree)?;
    }
    fs::create_dir_all(&tree)?;
    copy_own(&own, &tree)?;
    for name in published {
        let file = source.join(name);
        println!("cargo::rerun-if-changed={}", file.display());
        if !file.is_file() {
            let file = file.display();
            println!(
                "cargo::error={file} is not there: SCION_SDK_SRC names the published Rust's folder"
            );
            continue;
        }
        let target = tree.join(name);
        if target.exists() {
            let target = target.display();
            println!("cargo::error={target} stands in for a published file that is there");
            continue;
        }
        fs::create_dir_all(target.parent().unwrap())?;
        fs::copy(file, target)?;
    }
    Ok(())
}

fn package_folder() -> PathBuf {
    PathBuf::from(env::var_os("CARGO_MANIFEST_DIR").unwrap())
}

/// `SCION_SDK_SRC`, from the repository's root if relative; `../shared/docs/src` if not set.
fn source_folder() -> PathBuf {
    println!("cargo::rerun-if-env-changed=SCION_SDK_SRC");
    let named = env::var_os("SCION_SDK_SRC").unwrap_or("../shared/docs/src".into());
    package_folder().join("../../..").join(named)
}

fn copy_own(folder: &Path, into: &Path) -> io::Result<()> {
    println!("cargo::rerun-if-changed={}", folder.display());
    for entry in fs::read_dir(folder)? {
        let entry = entry?;
        let target = into.join(entry.file_name());
        if entry.file_type()?.is_dir() {
            fs::create_dir(&target)?;
            copy_own(&entry.path(), &target)?;
        } else {
            fs::copy(entry.path(), target)?;
        }
    }
    Ok(())
}
