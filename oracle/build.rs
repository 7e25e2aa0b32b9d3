//! Lays out the original's `types.rs`, unchanged, with the files of `src/types` beside it as its modules: those that include the
//! original's files, and the empty ones for files that aren't at hand and that nothing here uses.

use std::path::PathBuf;
use std::{env, fs, io};

const EMPTY: [&str; 2] = ["control.rs", "report.rs"];
const MODULES: [(&str, &str); 3] = [
    ("enumerations.rs", "enumerations.rs"),
    ("rt_services.rs", "rt_services.rs"),
    ("types/types.rs", "types.rs"),
];

fn main() -> io::Result<()> {
    let here = PathBuf::from(env::var_os("CARGO_MANIFEST_DIR").unwrap_or_default());
    let out = PathBuf::from(env::var_os("OUT_DIR").unwrap_or_default());
    let original = here.join("../../shared/docs/src/src/types.rs");
    let modules = here.join("src/types");
    fs::create_dir_all(out.join("types"))?;
    println!("cargo:rerun-if-changed={}", original.display());
    println!("cargo:rerun-if-changed={}", modules.display());
    fs::copy(original, out.join("types.rs"))?;
    for name in EMPTY {
        fs::copy(modules.join(name), out.join(name))?;
    }
    for (name, file) in MODULES {
        let line = format!("include!({:?});\n", modules.join(file));
        fs::write(out.join(name), line)?;
    }
    Ok(())
}
