//! Links the archives named by JUDGE_ARCHIVE, which has judge_record, and by TALLY_ARCHIVE, which has the calls on tallies.
use std::env;
use std::path::Path;

fn main() {
    for (variable, library) in [("JUDGE_ARCHIVE", "judge"), ("TALLY_ARCHIVE", "tally")] {
        println!("cargo:rerun-if-env-changed={variable}");
        if env::var_os("CARGO_FEATURE_STAND_IN").is_none() {
            link(variable, library);
        }
    }
}

fn link(variable: &str, library: &str) {
    let archive = env::var(variable).unwrap_or_else(|_| panic!("{variable} must name the archive lib{library}.a (the Makefile sets it)"));
    let path = Path::new(&archive);
    assert!(path.is_file(), "the archive {archive} is missing: build it by `make {archive}`");
    println!("cargo:rerun-if-changed={archive}");
    let folder = path.parent().expect("an archive stands in a folder");
    println!("cargo:rustc-link-search=native={}", folder.display());
    println!("cargo:rustc-link-lib=static={library}");
}
