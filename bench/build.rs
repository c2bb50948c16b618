//! Links the proved library: TIKFAZRUL_LIB names the folder of libnbt.a.
fn main() {
    println!("cargo:rerun-if-env-changed=TIKFAZRUL_LIB");
    let folder = std::env::var("TIKFAZRUL_LIB").expect("TIKFAZRUL_LIB names the folder of libnbt.a");
    println!("cargo:rerun-if-changed={folder}/libnbt.a");
    println!("cargo:rustc-link-search={folder}");
    println!("cargo:rustc-link-lib=static=nbt");
}
