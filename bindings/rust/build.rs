//! Links the libraries in the folder that PICKY_DOOR names, and links them again where one has changed.

fn main() {
    println!("cargo:rerun-if-env-changed=PICKY_DOOR");
    if let Ok(folder) = std::env::var("PICKY_DOOR") {
        println!("cargo:rustc-link-search=native={folder}");
        for library in ["libpicky_door.a", "liblibc_c.a"] {
            println!("cargo:rerun-if-changed={folder}/{library}");
        }
    }
    println!("cargo:rustc-link-lib=static=picky_door");
    println!("cargo:rustc-link-lib=static=libc_c");
}
