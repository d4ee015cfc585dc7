//! Links the proved library: RUNGLAET_LIB, or target/staticlib/librunglaet.a in the repository.

use std::env;
use std::path::{Path, PathBuf};

fn main() {
    println!("cargo:rerun-if-env-changed=RUNGLAET_LIB");
    let library = match env::var_os("RUNGLAET_LIB").filter(|path| !path.is_empty()) {
        Some(path) => PathBuf::from(path),
        None => Path::new(env!("CARGO_MANIFEST_DIR")).join("../../target/staticlib/librunglaet.a"),
    };
    let file = library.canonicalize().ok().filter(|path| path.is_file());
    let Some((folder, name)) = file
        .as_deref()
        .and_then(|file| file.parent().zip(file.file_name()))
    else {
        println!(
            "cargo::error=the proved library is not there; run `tools/make.sh runglaet` in the repository or set \
             RUNGLAET_LIB to its file: {}",
            library.display()
        );
        return;
    };
    println!("cargo:rerun-if-changed={}", folder.join(name).display());
    println!("cargo:rustc-link-search=native={}", folder.display());
    println!(
        "cargo:rustc-link-lib=static:+verbatim={}",
        name.to_string_lossy()
    );
}
