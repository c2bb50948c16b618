//! Links the proved library, libnbt.a: from the folder that TIKFAZRUL_LIB names, else from the repository's target/native or
//! crates/nbt/out.
use std::path::{Path, PathBuf};

fn main() {
    println!("cargo:rerun-if-env-changed=TIKFAZRUL_LIB");
    let folder = folder();
    println!("cargo:rerun-if-changed={}", folder.join("libnbt.a").display());
    println!("cargo:rustc-link-search=native={}", folder.display());
    println!("cargo:rustc-link-lib=static=nbt");
}

fn folder() -> PathBuf {
    if let Ok(named) = std::env::var("TIKFAZRUL_LIB") {
        let folder = PathBuf::from(&named);
        assert!(folder.join("libnbt.a").is_file(), "TIKFAZRUL_LIB is {named}, which has no libnbt.a");
        return folder;
    }
    let here = std::env::var("CARGO_MANIFEST_DIR").expect("cargo sets CARGO_MANIFEST_DIR");
    let top = Path::new(&here).join("..");
    ["target/native", "crates/nbt/out"]
        .map(|name| top.join(name))
        .into_iter()
        .find(|folder| folder.join("libnbt.a").is_file())
        .expect("libnbt.a is not built: run `tools/native-staticlib nbt` in the repository, or set TIKFAZRUL_LIB to its folder")
}
