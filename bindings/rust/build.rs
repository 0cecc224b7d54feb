use std::path::Path;

// Says where libtink is: in the folder that TINK_LIB_DIR names, or where the linker looks anyway.
fn main() {
    println!("cargo:rerun-if-env-changed=TINK_LIB_DIR");
    if let Ok(folder) = std::env::var("TINK_LIB_DIR") {
        if !Path::new(&folder).is_absolute() || !Path::new(&folder).join("libtink.so").exists() {
            panic!("TINK_LIB_DIR is {folder}: give the whole path of the folder that has libtink.so (`make lib` makes it in bindings/out)");
        }
        println!("cargo:rustc-link-search=native={folder}");
        println!("cargo:rustc-link-arg=-Wl,-rpath,{folder}");
    }
    println!("cargo:rustc-link-lib=dylib=tink");
}
