// Says where libawaqlla.a is: in the folder that AWAQLLA_LIB names, in an installation's lib/ two folders up, or in a clone's target/.
use std::path::PathBuf;

fn main() {
    println!("cargo:rerun-if-env-changed=AWAQLLA_LIB");
    let here =
        PathBuf::from(std::env::var("CARGO_MANIFEST_DIR").expect("cargo says where the crate is"));
    let near = ["../../target", "../../../lib"].map(|way| here.join(way));
    let named = std::env::var_os("AWAQLLA_LIB").map(PathBuf::from);
    let folder = named.or_else(|| {
        near.into_iter()
            .find(|folder| folder.join("libawaqlla.a").exists())
    });
    let folder =
        folder.expect("no libawaqlla.a: tools/library makes it, or AWAQLLA_LIB names its folder");
    println!("cargo:rustc-link-search=native={}", folder.display());
    println!("cargo:rustc-link-lib=static=awaqlla");
    println!(
        "cargo:rerun-if-changed={}",
        folder.join("libawaqlla.a").display()
    );
}
