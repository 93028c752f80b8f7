fn main() {
    // ETS_LIB is the folder of libets.a; else the linker's own folders are looked through.
    println!("cargo:rerun-if-env-changed=ETS_LIB");
    if let Ok(folder) = std::env::var("ETS_LIB") {
        println!("cargo:rustc-link-search=native={folder}");
    }
    println!("cargo:rustc-link-lib=static=ets");
}
