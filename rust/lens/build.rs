//! Finds the archive and hands it to the linker, and turns the numbers of include/lens.h into constants: they stand in
//! that header and nowhere in this crate.
use std::path::{Path, PathBuf};
use std::{env, fs, process};

/// Ends the build with words that say what to do.
fn stop(words: &str) -> ! {
    eprintln!("lens: {words}");
    process::exit(1)
}

fn variable(name: &str) -> String {
    env::var(name).unwrap_or_else(|_| stop(&format!("cargo didn't set {name}")))
}

/// The archive: LENS_ARCHIVE, or what tools/make-archive leaves in this repository.
fn archive(repository: &Path) -> PathBuf {
    let path = match env::var_os("LENS_ARCHIVE") {
        Some(path) => PathBuf::from(path),
        None => repository.join("target/staticlib/liblens_c.a"),
    };
    if !path.is_file() {
        stop(&format!(
            "there is no archive at {}.\n\
             Make it with the Rattle kit, in {}:\n\n    tools/make-archive\n\n\
             or set LENS_ARCHIVE to the absolute path of a liblens_c.a that was made elsewhere, from the same sources.",
            path.display(),
            repository.display()
        ));
    }
    path
}

/// A line of the header as a constant, if it is a define of a plain number.
fn constant(line: &str) -> Option<String> {
    let (name, rest) = line.strip_prefix("#define ")?.split_once(' ')?;
    let value = rest.split("/*").next()?.trim();
    let kind_and_value = |kind: &str, value: &str| Some(format!("pub const {name}: {kind} = {value};\n"));
    if let Some(word) = value.strip_prefix("UINT64_C(").and_then(|v| v.strip_suffix(')')) {
        kind_and_value("u64", word)
    } else if value.parse::<usize>().is_ok() {
        kind_and_value("usize", value)
    } else if value.parse::<f64>().is_ok() {
        kind_and_value("f64", value)
    } else {
        None
    }
}

fn main() {
    let repository = Path::new(&variable("CARGO_MANIFEST_DIR")).join("../..");
    let repository = repository.canonicalize().unwrap_or(repository);
    let out = PathBuf::from(variable("OUT_DIR"));
    let (processor, system) = (variable("CARGO_CFG_TARGET_ARCH"), variable("CARGO_CFG_TARGET_OS"));
    if (processor.as_str(), system.as_str()) != ("x86_64", "linux") {
        stop(&format!(
            "archives are made for x86-64 Linux only, and this build is for {processor} {system}.\n\
             Build with --target x86_64-unknown-linux-gnu; rust/check in {} shows how, linker and emulator included.",
            repository.display()
        ));
    }

    let header = repository.join("include/lens.h");
    let text = fs::read_to_string(&header).unwrap_or_else(|e| stop(&format!("cannot read {}: {e}", header.display())));
    let constants: String = text.lines().filter_map(constant).collect();
    let from = archive(&repository);
    for (path, done) in [
        ("header.rs", fs::write(out.join("header.rs"), constants)),
        ("liblens_c.a", fs::copy(&from, out.join("liblens_c.a")).map(|_| ())),
    ] {
        done.unwrap_or_else(|e| stop(&format!("cannot write {}: {e}", out.join(path).display())));
    }

    println!("cargo:rustc-link-search=native={}", out.display());
    println!("cargo:rustc-link-lib=static=lens_c");
    println!("cargo:rerun-if-env-changed=LENS_ARCHIVE");
    for path in [from, header, PathBuf::from("build.rs")] {
        println!("cargo:rerun-if-changed={}", path.display());
    }
}
