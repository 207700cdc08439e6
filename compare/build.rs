//! Names the Rust of voxr, unchanged and where it stands, as modules of this package, with the
//! stand-ins of document 01 beside it, and links the library.
//!
//! - `VOXR_SRC`: the folder that holds `crates/voxr-narrate/src`.
//! - `QILUVRAIT_LIB`: the folder that holds `libc_api.a`.

use std::collections::BTreeMap;
use std::fmt::Write;
use std::path::{Path, PathBuf};
use std::{env, fs};

/// Files of voxr, by their module. A path of `use crate::..` in them has to be a module here.
const TAKEN: &[(&str, &str)] = &[
    ("js", "js.rs"),
    ("transcript::envelope", "transcript/envelope.rs"),
    ("transcript::even", "transcript/even.rs"),
    ("transcript::fit", "transcript/fit.rs"),
    ("transcript::loops", "transcript/loops.rs"),
    ("transcript::onsets", "transcript/onsets.rs"),
    ("transcript::phrase_align", "transcript/phrase_align.rs"),
    ("transcript::pieces", "transcript/pieces.rs"),
    // js_math itself, of which src/refused_inputs.rs asks `js_pow`: the others see its stand-in
    ("voxr_math", "js_math.rs"),
];

/// Functions of voxr that are taken without the rest of their file: a stand-in includes each.
const CUT_OUT: &[(&str, &str)] = &[("peak", "transcript/transcriber.rs")];

/// Stand-ins, by the module of voxr in whose place they stand.
const STAND_INS: &[(&str, &str)] = &[
    ("check", "check.rs"),
    ("error", "error.rs"),
    ("js_math", "js_math.rs"),
    ("pattern", "pattern.rs"),
    ("text", "text.rs"),
    ("transcript::transcriber", "transcriber.rs"),
];

/// What stands in a module: further modules, and the file of each that is a file.
#[derive(Default)]
struct Modules {
    files: BTreeMap<String, PathBuf>,
    inner: BTreeMap<String, Modules>,
}

impl Modules {
    fn add(&mut self, module: &str, file: PathBuf) {
        match module.split_once("::") {
            Some((outer, rest)) => self.inner.entry(outer.into()).or_default().add(rest, file),
            None => {
                self.files.insert(module.into(), file);
            }
        }
    }

    fn write(&self, text: &mut String) {
        for (name, file) in &self.files {
            let attributes =
                format!("#[allow(dead_code, clippy::clone_on_copy)] #[path = {file:?}]");
            writeln!(text, "{attributes} pub(crate) mod {name};").unwrap();
        }
        for (name, modules) in &self.inner {
            writeln!(text, "pub(crate) mod {name} {{").unwrap();
            modules.write(text);
            text.push_str("}\n");
        }
    }
}

/// The folder that an environment variable names, or an end of the build that says what to set.
fn folder(variable: &str, what: &str) -> PathBuf {
    println!("cargo::rerun-if-env-changed={variable}");
    let Some(folder) = env::var_os(variable).filter(|v| !v.is_empty()) else {
        fail(&format!("{variable} is not set: it names {what}"));
    };
    PathBuf::from(folder)
}

/// A file that has to be there.
fn file(path: PathBuf, variable: &str) -> PathBuf {
    println!("cargo::rerun-if-changed={}", path.display());
    if !path.is_file() {
        fail(&format!("{variable}: no file {}", path.display()));
    }
    path
}

/// The text of a function, unchanged: from its `fn` to the brace that closes it.
fn cut_out(name: &str, path: &Path) -> String {
    let text = fs::read_to_string(path).unwrap();
    let start = text.find(&format!("\nfn {name}("));
    let function = start.and_then(|start| {
        let length = text[start..].find("\n}\n")?;
        Some(text[start + 1..start + length + 3].to_string())
    });
    function.unwrap_or_else(|| fail(&format!("no function {name} in {}", path.display())))
}

fn fail(message: &str) -> ! {
    println!("cargo::error={message}");
    std::process::exit(1);
}

fn main() {
    println!("cargo::rerun-if-changed=build.rs");
    let voxr = folder("VOXR_SRC", "the folder that holds crates/voxr-narrate/src");
    let voxr = voxr.join("crates/voxr-narrate/src");
    let here = PathBuf::from(env::var_os("CARGO_MANIFEST_DIR").unwrap());
    let mut modules = Modules::default();
    for (module, name) in TAKEN {
        modules.add(module, file(voxr.join(name), "VOXR_SRC"));
    }
    for (module, name) in STAND_INS {
        modules.add(module, here.join("src/standins").join(name));
    }
    let mut text = String::new();
    modules.write(&mut text);
    let out = PathBuf::from(env::var_os("OUT_DIR").unwrap());
    fs::write(out.join("voxr.rs"), text).unwrap();
    for (name, source) in CUT_OUT {
        let source = file(voxr.join(source), "VOXR_SRC");
        fs::write(out.join(format!("{name}.rs")), cut_out(name, &source)).unwrap();
    }

    let library = folder("QILUVRAIT_LIB", "the folder that holds libc_api.a");
    file(library.join("libc_api.a"), "QILUVRAIT_LIB");
    println!("cargo::rustc-link-search=native={}", library.display());
    println!("cargo::rustc-link-lib=static=c_api");
}
