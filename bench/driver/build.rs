//! Links the port's functions and zlib beside the Rust's.

fn main() {
    let folder = std::env::var("PORT_LIBRARY").expect("PORT_LIBRARY, the folder of libexports.a");
    println!("cargo:rustc-link-search=native={folder}");
    println!("cargo:rustc-link-lib=static=exports");
    println!("cargo:rustc-link-lib=z");
    println!("cargo:rerun-if-changed={folder}/libexports.a");
    println!("cargo:rerun-if-env-changed=PORT_LIBRARY");
}
