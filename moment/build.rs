//! Links the static library of the proved code, from the folder that `rt staticlib` writes to. Where it is not there the programs are built
//! without it, to say so when they are run.

fn main() {
    let folder = concat!(env!("CARGO_MANIFEST_DIR"), "/../target/staticlib");
    println!("cargo:rerun-if-changed={folder}/libexports.a");
    println!("cargo:rustc-check-cfg=cfg(linked)");
    if std::path::Path::new(folder).join("libexports.a").exists() {
        println!("cargo:rustc-link-search=native={folder}");
        println!("cargo:rustc-link-lib=static=exports");
        println!("cargo:rustc-cfg=linked");
    } else {
        // No such file: the library is looked for at every build.
        println!("cargo:rerun-if-changed=unlinked");
    }
}
