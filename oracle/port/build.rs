//! Links the Rattle archive libsip_dialog.a from the folder that PORT_LIB names (`oracle/run` sets it).

/// Tells cargo what to link and when to look again.
fn main() {
    println!("cargo:rerun-if-env-changed=PORT_LIB");
    let folder = std::env::var("PORT_LIB").expect("PORT_LIB: the folder of libsip_dialog.a");
    println!("cargo:rerun-if-changed={folder}/libsip_dialog.a");
    println!("cargo:rustc-link-search=native={folder}");
    println!("cargo:rustc-link-lib=static=sip_dialog");
}
