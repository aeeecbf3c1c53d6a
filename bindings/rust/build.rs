//! Links the proved library. JEQLLUNA_LIB names the archive; where it is not set, the one that `tools/build cabi` writes in this
//! repository is taken.
//!
//! Where there is none this only warns, since documentation and checks need none; what links is then refused by the compiler.
use std::path::PathBuf;

fn main() {
    println!("cargo::rerun-if-env-changed=JEQLLUNA_LIB");
    let target = |what: &str| std::env::var(format!("CARGO_CFG_TARGET_{what}")).unwrap_or_default();
    let (arch, os, env, width) = (target("ARCH"), target("OS"), target("ENV"), target("POINTER_WIDTH"));
    if (arch.as_str(), os.as_str(), width.as_str()) != ("x86_64", "linux", "64") || !["gnu", "musl"].contains(&env.as_str()) {
        refuse(&format!("the library is for x86-64 Linux with glibc or musl, not for {arch} {os} {env}"));
    }
    let here = PathBuf::from(std::env::var_os("CARGO_MANIFEST_DIR").expect("cargo sets it"));
    let archive = match std::env::var_os("JEQLLUNA_LIB") {
        Some(path) => PathBuf::from(path),
        None => here.join("../../target/staticlib/libcabi.a"),
    };
    println!("cargo::rerun-if-changed={}", archive.display());
    let Some(name) = archive.file_name().and_then(|n| n.to_str()?.strip_prefix("lib")?.strip_suffix(".a")) else {
        refuse(&format!("JEQLLUNA_LIB names {}, which is no lib*.a", archive.display()));
    };
    if !archive.is_file() {
        println!(
            "cargo::warning=no library at {}, so nothing can be linked: run `tools/build cabi` in the repository, or set JEQLLUNA_LIB",
            archive.display()
        );
    }
    println!("cargo::rustc-link-search=native={}", archive.parent().expect("a file has a folder").display());
    println!("cargo::rustc-link-lib=static={name}");
}

fn refuse(why: &str) -> ! {
    println!("cargo::error={why}");
    std::process::exit(1)
}
