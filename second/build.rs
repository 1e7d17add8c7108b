//! Says where the static libraries stand, for the programs that call them directly. Without the feature `face` there is
//! nothing to say.

fn main() {
    println!("cargo:rerun-if-changed=build.rs");
    println!("cargo:rerun-if-env-changed=GULL_LIB");
    if std::env::var_os("CARGO_FEATURE_FACE").is_none() {
        return;
    }
    let folder = std::env::var("GULL_LIB").expect("GULL_LIB must name the folder of libgullcordage.a");
    let folder = std::fs::canonicalize(&folder).expect("GULL_LIB names no folder");
    for library in ["libgullcordage.a", "libtiming.a"] {
        println!("cargo:rerun-if-changed={}", folder.join(library).display());
    }
    println!("cargo:rustc-link-search=native={}", folder.display());
}
