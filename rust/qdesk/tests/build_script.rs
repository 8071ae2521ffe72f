//! What the build script says where the library is not at hand or too old, and that it proves nothing.

#[allow(dead_code)]
#[path = "../build.rs"]
mod build_script;

use build_script::{named_folder, newer_source, repository_folder, LIBRARY};
use std::fs::{self, File};
use std::path::{Path, PathBuf};
use std::process::Command;
use std::time::{Duration, SystemTime};

/// An empty folder of a test's own.
fn empty(name: &str) -> PathBuf {
    let folder = Path::new(env!("CARGO_TARGET_TMPDIR")).join(name);
    let _ = fs::remove_dir_all(&folder);
    fs::create_dir_all(&folder).unwrap();
    folder
}

/// A folder with a file by the library's name.
fn filled(name: &str, inner: &str) -> PathBuf {
    let folder = empty(name);
    fs::create_dir_all(folder.join(inner)).unwrap();
    fs::write(folder.join(inner).join(LIBRARY), "").unwrap();
    folder
}

#[test]
fn a_named_folder_is_taken() {
    let folder = filled("named", "");
    assert_eq!(named_folder(folder.clone()), Ok(folder));
}

#[test]
fn a_named_folder_without_the_library_is_refused() {
    let folder = empty("named_empty");
    let message = format!("QDESK_LIB_DIR is {}, which has no libqdesk.a", folder.display());
    assert_eq!(named_folder(folder), Err(message));
}

#[test]
fn a_named_folder_has_its_full_path() {
    let message = "QDESK_LIB_DIR is libs, which is not a full path".to_string();
    assert_eq!(named_folder(PathBuf::from("libs")), Err(message));
}

#[test]
fn the_repositorys_library_is_taken() {
    let repository = filled("repository", "target/staticlib");
    assert_eq!(repository_folder(&repository), Ok(repository.join("target/staticlib")));
}

#[test]
fn where_there_is_no_library_it_is_said_how_it_is_made_and_how_long_that_takes() {
    let message = repository_folder(&empty("no_library")).unwrap_err();
    assert!(
        message.starts_with("no target/staticlib/libqdesk.a in the repository: run `sh scripts/static_libraries.sh`")
    );
    assert!(message.contains("3 to 7 minutes") && message.contains("set QDESK_LIB_DIR"), "{message}");
}

/// A file of a repository, changed so many seconds after the library was made.
fn changed(repository: &Path, file: &str, after: u64) {
    let path = repository.join(file);
    fs::create_dir_all(path.parent().unwrap()).unwrap();
    let time = SystemTime::UNIX_EPOCH + Duration::from_secs(1_000_000 + after);
    File::create(path).unwrap().set_modified(time).unwrap();
}

#[test]
fn a_library_that_is_older_than_its_sources_is_told() {
    let repository = empty("older");
    let list = "# NAME: what it depends on\nbasics:\ntape: basics\nqdesk: formatter\nqdesk_c staticlib: qdesk\nformatter: tape\n\
                desk: formatter\n";
    fs::write(repository.join("crates.txt"), list).unwrap();
    changed(&repository, "target/staticlib/libqdesk.a", 1);
    changed(&repository, "crates/basics/src/lib.rt", 0);
    changed(&repository, "crates/formatter/src/lib.rt", 1);
    changed(&repository, "crates/desk/src/main.rt", 2);
    assert_eq!(newer_source(&repository), None);
    changed(&repository, "crates/basics/src/lib.rt", 2);
    assert_eq!(newer_source(&repository), Some(PathBuf::from("crates/basics/src/lib.rt")));
    // `rt check` refuses sources in no crate that is listed, here as elsewhere in the repository.
    fs::remove_dir_all(repository).unwrap();
}

/// `cargo package` builds the crate outside of its repository, where it finds no library: it says so at once, and no `rt` is started.
#[test]
fn a_package_starts_no_proof() {
    let folder = empty("package");
    fs::write(folder.join("rt"), "#!/bin/sh\n: > \"$(dirname \"$0\")/started\"\n").unwrap();
    assert!(Command::new("chmod").arg("+x").arg(folder.join("rt")).status().unwrap().success());
    let path = format!("{}:{}", folder.display(), std::env::var("PATH").unwrap());
    let package = Command::new(env!("CARGO"))
        .args(["package", "--offline", "--allow-dirty", "--package", "qdesk", "--target-dir"])
        .arg(folder.join("target"))
        .current_dir(env!("CARGO_MANIFEST_DIR"))
        .env("PATH", path)
        .env_remove("QDESK_LIB_DIR")
        .output()
        .unwrap();
    let errors = String::from_utf8_lossy(&package.stderr);
    assert!(errors.contains("no target/staticlib/libqdesk.a in the repository"), "{errors}");
    assert!(!folder.join("started").exists(), "{errors}");
}
