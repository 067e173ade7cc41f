//! Links the archive that `make lib` built for this machine.

fn main() {
    let archives = format!("{}/../target/{}/lib", env!("CARGO_MANIFEST_DIR"), std::env::consts::ARCH);
    println!("cargo:rustc-link-search=native={archives}");
    println!("cargo:rustc-link-lib=static=ballastwren");
    println!("cargo:rerun-if-changed={archives}/libballastwren.a");
}
