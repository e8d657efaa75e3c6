//! Links the program to nothing but its own code and the archive.

fn main() {
    println!("cargo:rerun-if-changed=build.rs");
    for word in ["-nostdlib", "-nostartfiles", "-static", "-no-pie"] {
        println!("cargo:rustc-link-arg-bins={word}");
    }
}
