//! Links the driver with the static library in the folder that bench/run names, and with the earlier one if there is
//! one.

fn main() {
    let folder = std::env::var("CONTOUR_C_FOLDER").expect("bench/run sets CONTOUR_C_FOLDER");
    println!("cargo:rerun-if-env-changed=CONTOUR_C_FOLDER");
    println!("cargo:rustc-link-search=native={folder}");
    link(&folder, "contour_c");
    if std::env::var("CARGO_FEATURE_BEFORE").is_ok() {
        link(&folder, "contour_c_before");
    }
}

fn link(folder: &str, library: &str) {
    println!("cargo:rerun-if-changed={folder}/lib{library}.a");
    println!("cargo:rustc-link-lib=static={library}");
}
