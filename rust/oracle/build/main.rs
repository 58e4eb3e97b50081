//! Derives the oracle's sources from the published ones (`rust/printed`) by counted replacements.
//! The tables `adaptive`, `raster`, `geom` and `error` are the whole difference.
mod adaptive;
mod derive;
mod error;
mod geom;
mod raster;

use std::path::PathBuf;
use std::{env, fs};

fn main() {
    let here = PathBuf::from(env::var_os("CARGO_MANIFEST_DIR").expect("cargo sets CARGO_MANIFEST_DIR"));
    let out = PathBuf::from(env::var_os("OUT_DIR").expect("cargo sets OUT_DIR"));
    let printed = here.join("../printed");
    println!("cargo::rerun-if-changed=build");
    for (name, published, edits) in [
        ("adaptive.rs", 0x9d9f_e65b_c0a2_e444, adaptive::EDITS),
        ("raster.rs", 0x85ea_651a_8572_0bee, raster::EDITS),
        ("geom.rs", 0xa572_809e_49af_0d38, geom::EDITS),
        ("error.rs", 0x3d17_1ea9_ee61_5f01, error::EDITS),
    ] {
        let path = printed.join(name);
        println!("cargo::rerun-if-changed={}", path.display());
        let text = fs::read_to_string(&path).unwrap_or_else(|e| panic!("{}: {e}", path.display()));
        assert_eq!(derive::fingerprint(&text), published, "{name} is not the published file");
        let derived = derive::derive(name, text, edits).unwrap_or_else(|fault| panic!("{fault}"));
        fs::write(out.join(name), derived).unwrap_or_else(|e| panic!("{name}: {e}"));
    }
}
