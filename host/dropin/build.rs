//! Names the shared library in its own header, so that programs linked with it ask for it by that name.

fn main() {
    println!("cargo:rerun-if-changed=build.rs");
    println!("cargo:rustc-cdylib-link-arg=-Wl,-soname,libthamrunlek_blas.so");
}
