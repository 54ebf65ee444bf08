//! Links the static library of torusmem: the file that TORUSMEM_LIB names, or crates/torusmem_c/out/libtorusmem_c.a
//! of this repository, or else the one that is installed, as pkg-config tells it. Its memory and its words are those of
//! include/torusmem_heap.c and torusmem_text.c, which `cc` compiles; one that is installed has them already.
use std::path::{Path, PathBuf};
use std::process::Command;
use std::{env, fs};

fn main() {
    let root = Path::new(env!("CARGO_MANIFEST_DIR")).join("../../..");
    let out = PathBuf::from(env::var_os("OUT_DIR").expect("cargo gives OUT_DIR"));
    let built = root.join("crates/torusmem_c/out/libtorusmem_c.a");
    let library = match env::var_os("TORUSMEM_LIB") {
        Some(named) => PathBuf::from(named),
        None if built.exists() => built,
        None => installed().unwrap_or(built),
    };
    let include = root.join("include");
    let heap = include.join("torusmem_heap.c");
    for variable in ["TORUSMEM_LIB", "CC", "PKG_CONFIG_PATH"] {
        println!("cargo:rerun-if-env-changed={variable}");
    }
    for file in [&library, &include].into_iter().filter(|it| it.exists()) {
        println!("cargo:rerun-if-changed={}", file.display());
    }
    if let Err(error) = fs::copy(&library, out.join("libtorusmem_c.a")) {
        panic!(
            "{}: {error}. Make the library by `./torusmem --library`, or name it by TORUSMEM_LIB",
            library.display()
        );
    }
    println!("cargo:rustc-link-search=native={}", out.display());
    println!("cargo:rustc-link-lib=static=torusmem_c");
    if heap.exists() {
        let mut archive = Command::new("ar");
        archive.arg("crs").arg(out.join("libtorusmem_heap.a"));
        for name in ["torusmem_heap", "torusmem_text"] {
            let object = out.join(name).with_extension("o");
            let mut compiler = Command::new(env::var_os("CC").unwrap_or("cc".into()));
            compiler.args(["-O2", "-fPIC", "-I"]).arg(&include).args(["-c", "-o"]).arg(&object);
            run(compiler.arg(include.join(name).with_extension("c")));
            archive.arg(&object);
        }
        run(&mut archive);
        println!("cargo:rustc-link-lib=static=torusmem_heap");
    }
}

/// The static library that is installed, where pkg-config knows of it.
fn installed() -> Option<PathBuf> {
    let told = Command::new("pkg-config").args(["--variable=libdir", "torusmem"]).output().ok()?;
    let folder = String::from_utf8(told.stdout).ok()?;
    let library = Path::new(folder.trim()).join("libtorusmem.a");
    (told.status.success() && library.exists()).then_some(library)
}

fn run(command: &mut Command) {
    match command.status() {
        Ok(status) if status.success() => {}
        other => panic!("{command:?}: {other:?}"),
    }
}
