//! Links the static library and its heap. MAULGREEN_LIB_DIR is the folder of libmaulgreen.a and libmaulgreen_heap.a; without it that
//! of the C bindings, where `make` puts them.

fn main() {
    println!("cargo:rerun-if-env-changed=MAULGREEN_LIB_DIR");
    let beside = format!("{}/../c/out", env!("CARGO_MANIFEST_DIR"));
    let dir = std::env::var("MAULGREEN_LIB_DIR").unwrap_or(beside);
    println!("cargo:rerun-if-changed={dir}/libmaulgreen.a");
    println!("cargo:rustc-link-search=native={dir}");
    println!("cargo:rustc-link-lib=static=maulgreen");
    println!("cargo:rustc-link-lib=static=maulgreen_heap");
}
