//! Which kit proved the library, for `tuz --version`.
use std::env;
use std::process::Command;

fn main() {
    println!("cargo:rerun-if-changed=build.rs");
    println!("cargo:rerun-if-changed=../tuzmarghil/build.rs");
    println!("cargo:rerun-if-env-changed=TUZ_ARCHIVE");
    println!("cargo:rerun-if-env-changed=TUZ_KIT");
    let said = || {
        let said = Command::new("rt").arg("version").output().ok()?;
        let text = String::from_utf8(said.stdout).ok()?;
        said.status.success().then(|| text.trim().to_owned())
    };
    // who gives an archive (TUZ_ARCHIVE) may say what proved it
    let kit = env::var("TUZ_KIT").ok().or_else(said);
    let kit = kit.unwrap_or_else(|| "unknown kit".to_owned());
    println!("cargo:rustc-env=TUZ_KIT={kit}");
}
