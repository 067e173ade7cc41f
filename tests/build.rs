//! Builds the bridge to the archive that `make lib` built for ARCH, or that ARCHIVE names.

use std::env;
use std::path::Path;
use std::process::Command;

fn main() {
    let bridge = Path::new(&env::var_os("OUT_DIR").expect("cargo names a folder")).join("bridge");
    let built = Command::new("bash").arg("bridge/build.sh").arg(&bridge).output().expect("bash can be run");
    let said = String::from_utf8_lossy(&built.stdout);
    let complaint = String::from_utf8_lossy(&built.stderr);
    assert!(built.status.success(), "the bridge could not be built:\n{said}{complaint}");
    println!("cargo:rustc-env=BRIDGE={}", bridge.display());
    println!("cargo:rustc-env=BRIDGE_RUN={}", said.lines().last().unwrap_or_default());
    println!("cargo:rerun-if-changed=bridge");
    println!("cargo:rerun-if-changed=tools.sh");
    println!("cargo:rerun-if-changed=../include/ballastwren.h");
    for name in ["ARCH", "ARCHIVE", "CC", "RUN"] {
        println!("cargo:rerun-if-env-changed={name}");
    }
    let arch = env::var("ARCH").unwrap_or(env::consts::ARCH.into());
    let archive = env::var("ARCHIVE").unwrap_or(format!("../target/{arch}/lib/libballastwren.a"));
    println!("cargo:rerun-if-changed={archive}");
}
