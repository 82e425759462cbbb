//! Links the static library of the crate `exports`, from the folder that `GATECOBALT_LIBRARY` names.
fn main() {
    println!("cargo:rerun-if-env-changed=GATECOBALT_LIBRARY");
    let folder =
        std::env::var("GATECOBALT_LIBRARY").expect("GATECOBALT_LIBRARY has to name a folder");
    println!("cargo:rerun-if-changed={folder}/libgatecobalt.a");
    println!("cargo:rustc-link-search=native={folder}");
    println!("cargo:rustc-link-lib=static=gatecobalt");
}
