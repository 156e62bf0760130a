//! Links libclifford.a from the directory named by CLIFFORD_LIB_DIR.

fn main() {
    println!("cargo:rerun-if-env-changed=CLIFFORD_LIB_DIR");
    let directory = std::env::var("CLIFFORD_LIB_DIR").expect("CLIFFORD_LIB_DIR is not set");
    println!("cargo:rerun-if-changed={directory}/libclifford.a");
    println!("cargo:rustc-link-search=native={directory}");
    println!("cargo:rustc-link-lib=static=clifford");
}
