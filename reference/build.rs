//! Tells the linker where the C library of the `plain` feature is: libplain.so in the directory PLAIN_LIB_DIR. It is a shared
//! library, so that LD_LIBRARY_PATH can put another store in its place.

fn main() {
    println!("cargo:rerun-if-changed=build.rs");
    println!("cargo:rerun-if-env-changed=PLAIN_LIB_DIR");
    if std::env::var_os("CARGO_FEATURE_PLAIN").is_none() {
        return;
    }
    let directory = std::env::var("PLAIN_LIB_DIR").expect("PLAIN_LIB_DIR is the directory of libplain.so");
    println!("cargo:rustc-link-search=native={}", directory);
    println!("cargo:rustc-link-lib=dylib=plain");
    println!("cargo:rustc-link-arg=-Wl,-rpath,{}", directory);
}
