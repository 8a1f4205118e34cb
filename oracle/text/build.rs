//! Copies `src/builtin/ops.rs` of wgsl-types 0.3.2, named by OPS_RS, into the build folder.
//! The file is not part of this repository. Its length and sum are checked, so the text that is run is the published one, unchanged.
use std::{env, fs, path::Path};

const LENGTH: usize = 52_985;
const FNV1A: u64 = 0x49bf_e1db_a5f2_2725;

fn fnv1a(bytes: &[u8]) -> u64 {
    bytes.iter().fold(0xcbf2_9ce4_8422_2325, |h, b| (h ^ u64::from(*b)).wrapping_mul(0x100_0000_01b3))
}

fn main() {
    println!("cargo:rerun-if-env-changed=OPS_RS");
    let name = env::var("OPS_RS").expect("set OPS_RS to the path of src/builtin/ops.rs of wgsl-types 0.3.2");
    println!("cargo:rerun-if-changed={name}");
    let bytes = fs::read(&name).unwrap_or_else(|e| panic!("OPS_RS: cannot read {name}: {e}"));
    let sum = fnv1a(&bytes);
    if bytes.len() != LENGTH || sum != FNV1A {
        panic!("OPS_RS: {name} is not the text of wgsl-types 0.3.2: {} bytes, sum {sum:#018x}", bytes.len());
    }
    let folder = env::var("OUT_DIR").unwrap();
    fs::write(Path::new(&folder).join("ops.rs"), bytes).unwrap();
}
