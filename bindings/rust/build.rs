//! Links with libcontour_c.a in the folder CONTOUR_C_FOLDER, or where `tools/staticlib` writes it. Where
//! it is missing, or for another processor, the build ends with a sentence.

use std::env;
use std::path::PathBuf;
use std::process::exit;

fn main() {
    println!("cargo:rerun-if-env-changed=CONTOUR_C_FOLDER");
    let folder = env::var_os("CONTOUR_C_FOLDER").map_or_else(written_by_rt, PathBuf::from);
    let library = folder.join("libcontour_c.a");
    println!("cargo:rerun-if-changed={}", library.display());
    if variable("CARGO_CFG_TARGET_ARCH") != "x86_64" {
        stop("the library is x86-64 code: build for a target such as x86_64-unknown-linux-gnu");
    }
    if !library.is_file() {
        stop(&format!(
            "there is no file {}. 'tools/staticlib' writes the library into target/staticlib of the \
             repository, and './install PREFIX' into PREFIX/lib; CONTOUR_C_FOLDER=FOLDER names the folder that \
             it is in",
            library.display()
        ));
    }
    let folder = folder.display();
    println!("cargo:folder={folder}");
    println!("cargo:rustc-link-search=native={folder}");
    println!("cargo:rustc-link-lib=static=contour_c");
}

fn written_by_rt() -> PathBuf {
    PathBuf::from(variable("CARGO_MANIFEST_DIR")).join("../../target/staticlib")
}

fn variable(name: &str) -> String {
    env::var(name).unwrap_or_else(|_| stop(&format!("cargo sets no {name}")))
}

fn stop(sentence: &str) -> ! {
    eprintln!("nigrulent: {sentence}.");
    exit(1);
}
