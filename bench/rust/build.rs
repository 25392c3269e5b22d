//! Links the port's archives, which bench/build has made for this machine.
fn main() {
    let told = |name: &str| std::env::var(name).unwrap_or_else(|_| panic!("bench/build sets {name}"));
    let folder = told("PORT_ARCHIVE_DIR");
    println!("cargo:rustc-link-search=native={folder}");
    for archive in told("PORT_ARCHIVES").split(' ') {
        println!("cargo:rustc-link-lib=static={archive}");
        println!("cargo:rerun-if-changed={folder}/lib{archive}.a");
    }
    println!("cargo:rerun-if-env-changed=PORT_ARCHIVE_DIR");
    println!("cargo:rerun-if-env-changed=PORT_ARCHIVES");
}
