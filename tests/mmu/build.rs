//! Links the archive that the environment variable MMU_ARCHIVE names.

use std::path::Path;

fn main() {
    println!("cargo:rerun-if-env-changed=MMU_ARCHIVE");
    let archive = std::env::var("MMU_ARCHIVE").expect("MMU_ARCHIVE names the archive to link");
    let archive = Path::new(&archive);
    let folder = archive.parent().expect("the archive lies in a folder");
    let name = archive.file_name().and_then(|name| name.to_str());
    let name = name.and_then(|name| name.strip_prefix("lib")?.strip_suffix(".a"));
    let name = name.expect("the archive is called lib*.a");
    println!("cargo:rerun-if-changed={}", archive.display());
    println!("cargo:rustc-link-search=native={}", folder.display());
    println!("cargo:rustc-link-lib=static={name}");
}
