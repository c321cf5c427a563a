//! Finds the library: in the folder `lib` of the one that WB_PREFIX names, or else where pkg-config says. Nothing is built here.
use std::process::Command;

fn main() {
    println!("cargo:rerun-if-env-changed=WB_PREFIX");
    let folder = match std::env::var("WB_PREFIX") {
        Ok(prefix) => format!("{prefix}/lib"),
        Err(_) => told_by_package(),
    };
    // the archive, if there is one, and else the shared library, for which programs look in that folder too
    let kind = if std::path::Path::new(&folder).join("libwb.a").exists() { "static" } else { "dylib" };
    println!("cargo:rustc-link-search=native={folder}");
    println!("cargo:rustc-link-lib={kind}=wb");
    println!("cargo:lib={folder}");
}

fn told_by_package() -> String {
    let told = Command::new("pkg-config").args(["--variable=prefix", "wb"]).output().ok().filter(|it| it.status.success());
    match told {
        Some(told) => format!("{}/lib", String::from_utf8_lossy(&told.stdout).trim()),
        None => panic!("there is no library wb: ./wb --library DIR builds it; then WB_PREFIX=DIR, or PKG_CONFIG_PATH=DIR/lib/pkgconfig"),
    }
}
