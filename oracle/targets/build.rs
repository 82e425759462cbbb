//! Links the archives of the crates `probe_mode` and `probe_target`, from the folder that `PROBE_ARCHIVE` names.
fn main() {
    println!("cargo:rerun-if-env-changed=PROBE_ARCHIVE");
    let folder = std::env::var("PROBE_ARCHIVE").expect("PROBE_ARCHIVE has to name a folder");
    println!("cargo:rustc-link-search=native={folder}");
    for archive in ["probe_mode", "probe_target"] {
        println!("cargo:rerun-if-changed={folder}/lib{archive}.a");
        println!("cargo:rustc-link-lib=static={archive}");
    }
}
