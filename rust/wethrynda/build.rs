//! Links the check, `crates/ffi/out/libffi.a` at the top of the repository. Where it is missing
//! `rt lib` in `crates/ffi` makes it, which proves the crate `ffi` and what stands below it first.
//! It is not made anew where it is older than the Rattle sources: the gate makes it each time.
use std::path::Path;
use std::process::Command;

fn main() {
    let package = Path::new(env!("CARGO_MANIFEST_DIR"));
    let top = package.ancestors().nth(2).expect("the package stands in the repository's rust/");
    let ffi = top.join("crates/ffi");
    let folder = ffi.join("out");
    let archive = folder.join("libffi.a");
    if !archive.exists() {
        match Command::new("rt").arg("lib").current_dir(ffi).output() {
            Ok(run) if run.status.success() => {}
            Ok(run) => {
                let said = [run.stdout, run.stderr].concat();
                panic!("rt lib in crates/ffi failed:\n{}", String::from_utf8_lossy(&said));
            }
            Err(error) => panic!("the Rattle toolchain (rt) did not start: {error}"),
        }
    }
    println!("cargo:rerun-if-changed=build.rs");
    println!("cargo:rerun-if-changed={}", archive.display());
    println!("cargo:rustc-link-search=native={}", folder.display());
    println!("cargo:rustc-link-lib=static=ffi");
}
