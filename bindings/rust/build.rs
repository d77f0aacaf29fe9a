//! Where the library is: KASTEPUHM_LIB_DIR, or else lib/TARGET or target/lib/TARGET in a folder above this crate, which is where a release or `tools/library.sh` has it.
use std::path::{Path, PathBuf};

fn main() {
    println!("cargo:rerun-if-env-changed=KASTEPUHM_LIB_DIR");
    let folder = match found() {
        Ok(folder) => folder,
        Err(why) => {
            eprintln!("{why}");
            std::process::exit(1);
        }
    };
    println!("cargo:rerun-if-changed={}", folder.join("libyard.a").display());
    println!("cargo:rustc-link-search=native={}", folder.display());
    println!("cargo:rustc-link-lib=static=yard");
}

fn found() -> Result<PathBuf, String> {
    if let Some(folder) = std::env::var_os("KASTEPUHM_LIB_DIR") {
        let folder = PathBuf::from(folder);
        return if folder.join("libyard.a").is_file() { Ok(folder) } else { Err(format!("KASTEPUHM_LIB_DIR: there is no libyard.a in {}", folder.display())) };
    }
    let word = |name: &str| std::env::var(name).unwrap_or_default();
    let target = match (word("CARGO_CFG_TARGET_ARCH").as_str(), word("CARGO_CFG_TARGET_OS").as_str(), word("CARGO_CFG_TARGET_ENDIAN").as_str()) {
        ("x86_64", "linux", "little") => "x86-64",
        ("aarch64", "linux", "little") => "aarch64",
        (machine, system, _) => return Err(format!("kastepuhm: there is no library for {machine} {system} (x86-64 and little endian aarch64 Linux have one)")),
    };
    let here = word("CARGO_MANIFEST_DIR");
    Path::new(&here)
        .ancestors()
        .flat_map(|above| [above.join("lib").join(target), above.join("target/lib").join(target)])
        .find(|folder| folder.join("libyard.a").is_file())
        .ok_or_else(|| format!("kastepuhm: there is no target/lib/{target}/libyard.a above {here}: run tools/library.sh {target}, or set KASTEPUHM_LIB_DIR"))
}
