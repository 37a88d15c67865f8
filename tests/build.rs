//! Links the lister's static library `libexports.a` from the folder that the
//! environment variable PLANS_LIB names. Without it only the reference is
//! built, and the comparing programs say that there is nothing to compare.

fn main() {
    println!("cargo:rustc-check-cfg=cfg(linked)");
    println!("cargo:rerun-if-changed=build.rs");
    println!("cargo:rerun-if-env-changed=PLANS_LIB");
    if let Ok(folder) = std::env::var("PLANS_LIB") {
        println!("cargo:rerun-if-changed={folder}/libexports.a");
        println!("cargo:rustc-link-search=native={folder}");
        println!("cargo:rustc-link-lib=static=exports");
        println!("cargo:rustc-cfg=linked");
    }
}
