//! Says where the library is: in the folder that `TXNOBJ_LIB_DIR` names, or where `./libtxnobj build` of the repository puts it.

use std::path::PathBuf;

fn main() {
    println!("cargo:rerun-if-env-changed=TXNOBJ_LIB_DIR");
    let folder = std::env::var_os("TXNOBJ_LIB_DIR").map_or_else(
        || PathBuf::from(env!("CARGO_MANIFEST_DIR")).join("../../out"),
        PathBuf::from,
    );
    println!("cargo:rerun-if-changed={}", folder.join("libtxnobj.a").display());
    println!("cargo:rustc-link-search=native={}", folder.display());
    println!("cargo:rustc-link-lib=static=txnobj");
}
