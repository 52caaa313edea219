fn main() {
    if let Ok(dir) = std::env::var("ROADSURFACE_LIB_DIR") {
        println!("cargo:rustc-link-search=native={dir}");
        println!("cargo:rerun-if-changed={dir}/libroadsurface.a");
    }
    println!("cargo:rerun-if-env-changed=ROADSURFACE_LIB_DIR");
}
