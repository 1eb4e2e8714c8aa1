//! Finds the six files outside the repository and writes a list of modules that compiles them
//! where they stand. Nothing of them is copied, and nothing in them is changed.

use std::path::{Path, PathBuf};
use std::{env, fs};

/// The six files, with the length and the FNV-1a sum of each as docs/src gives them.
const FILES: [(&str, usize, u64); 6] = [
    ("initialize", 688, 0x8393_8302_B8BD_A822),
    ("maxcut_oracle", 6114, 0x85A4_9C1C_C23E_58AB),
    ("sdp_local_search", 2308, 0x237C_6D7D_BD46_BA31),
    ("sdp_project", 231, 0x1305_6CE8_0B4A_21F5),
    ("sdp_solver", 19423, 0x49AD_AB1E_B58E_6035),
    ("step_rules", 7138, 0xE230_3341_6314_3B94),
];

/// The lints that the six files are excused from; the harness is not.
const EXCUSED: &str = "#[allow(dead_code, non_snake_case, clippy::all)]";

fn main() {
    println!("cargo:rerun-if-env-changed=MIXINGCUT_SRC");
    let folder = source_folder();
    let mut modules = String::new();
    for (name, length, sum) in FILES {
        let path = folder.join(format!("src--src--{name}.rs.txt"));
        println!("cargo:rerun-if-changed={}", path.display());
        check(&path, length, sum);
        modules += &module(name, &path);
    }
    let out = PathBuf::from(env::var_os("OUT_DIR").expect("cargo names OUT_DIR"));
    fs::write(out.join("sources.rs"), modules).expect("the list of modules can be written");
}

/// MIXINGCUT_SRC, or shared/docs/src in the folder beside the repository.
fn source_folder() -> PathBuf {
    let here = PathBuf::from(env::var_os("CARGO_MANIFEST_DIR").expect("cargo names the crate"));
    let folder = match env::var_os("MIXINGCUT_SRC") {
        Some(named) => PathBuf::from(named),
        None => here.join("../../../shared/docs/src"),
    };
    fs::canonicalize(&folder).unwrap_or_else(|error| {
        stop(&format!(
            "the folder with MixingCut's six files is missing: {} ({error}). \
             Set MIXINGCUT_SRC to the folder that holds src--src--sdp_solver.rs.txt and the others.",
            folder.display()
        ))
    })
}

/// The file must be the one that the oracle was made for, to the byte.
fn check(path: &Path, length: usize, sum: u64) {
    let bytes = fs::read(path)
        .unwrap_or_else(|error| stop(&format!("cannot read {}: {error}", path.display())));
    if (bytes.len(), fnv1a(&bytes)) != (length, sum) {
        stop(&format!(
            "{} differs from the file of MixingCut b3fc8dfa20 that the oracle was made for",
            path.display()
        ));
    }
}

fn fnv1a(bytes: &[u8]) -> u64 {
    bytes.iter().fold(0xcbf2_9ce4_8422_2325, |sum, &byte| {
        (sum ^ u64::from(byte)).wrapping_mul(0x100_0000_01b3)
    })
}

/// One module. The solver's private functions are reached from a module of ours inside its own.
fn module(name: &str, path: &Path) -> String {
    let path = path.to_str().expect("the path is UTF-8");
    if name != "sdp_solver" {
        return format!("{EXCUSED}\n#[path = {path:?}]\npub mod {name};\n");
    }
    let here = env::var("CARGO_MANIFEST_DIR").expect("cargo names the crate");
    let inside = format!("{here}/src/inside_solver.rs");
    println!("cargo:rerun-if-changed={inside}");
    format!(
        "{EXCUSED}\npub mod {name} {{\n    include!({path:?});\n    \
         #[path = {inside:?}]\n    pub mod inside_solver;\n}}\n"
    )
}

fn stop(message: &str) -> ! {
    println!("cargo:warning=oracle: {message}");
    eprintln!("oracle: {message}");
    std::process::exit(1);
}
