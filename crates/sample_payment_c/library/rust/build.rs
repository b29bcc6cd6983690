fn main() {
    println!("cargo:rustc-link-search=native={}/../out", env!("CARGO_MANIFEST_DIR"));
    println!("cargo:rustc-link-lib=static=sample_payment_c");
    println!("cargo:rerun-if-changed=../out/libsample_payment_c.a");
}
