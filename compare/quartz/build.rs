//! Copies the four source files of quartz_nbt, unchanged, to where src/lib.rs finds them. QUARTZ_SRC names the folder they are taken from:
//! it holds io.rs and the others, or a folder src that does.
use std::{env, fs, path::PathBuf};

fn main() {
    println!("cargo:rerun-if-env-changed=QUARTZ_SRC");
    println!("cargo:rerun-if-changed=build.rs");
    let src = PathBuf::from(env::var("QUARTZ_SRC").expect("QUARTZ_SRC names the folder of the crate's sources"));
    let out = PathBuf::from(env::var("OUT_DIR").unwrap());
    let probe = PathBuf::from(env::var("CARGO_MANIFEST_DIR").unwrap()).join("src/probe.rs");
    let mut modules = String::new();
    for (name, vis) in [("io", "pub "), ("raw", ""), ("snbt", "pub "), ("tag", "")] {
        let from = [src.join(format!("{name}.rs")), src.join("src").join(format!("{name}.rs"))]
            .into_iter()
            .find(|p| p.is_file())
            .unwrap_or_else(|| panic!("no {name}.rs under {}", src.display()));
        println!("cargo:rerun-if-changed={}", from.display());
        let to = out.join(format!("{name}.rs"));
        fs::copy(from, &to).unwrap();
        if name == "snbt" {
            // Beside the file, in the same module, a probe that may look at the module's private lexer and error fields.
            println!("cargo:rerun-if-changed={}", probe.display());
            modules.push_str(&format!("pub mod snbt {{ include!({to:?}); #[path = {probe:?}] pub mod probe; }}\n"));
        } else {
            modules.push_str(&format!("#[path = {to:?}]\n{vis}mod {name};\n"));
        }
    }
    fs::write(out.join("modules.rs"), modules).unwrap();
}
