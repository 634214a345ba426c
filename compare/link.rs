//! Links the static libraries of this library into the driver.

fn main() {
    println!("cargo:rerun-if-env-changed=COMPARE_NATIVE");
    let Ok(folder) = std::env::var("COMPARE_NATIVE") else {
        return;
    };
    println!("cargo:rustc-link-search=native={folder}");
    for library in ["bridge", "toghinzu"] {
        println!("cargo:rerun-if-changed={folder}/lib{library}.a");
        println!("cargo:rustc-link-arg-bins={folder}/lib{library}.a");
    }
}
