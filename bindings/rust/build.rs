// Links the proved archive. `rt lib` in crates/mengyubad writes it to the folder out there; MENGYUBAD_LIB names another folder.
use std::env;
use std::path::PathBuf;

fn main() {
    println!("cargo:rerun-if-env-changed=MENGYUBAD_LIB");
    let folder = match env::var_os("MENGYUBAD_LIB") {
        Some(folder) => PathBuf::from(folder),
        None => {
            let here = PathBuf::from(
                env::var_os("CARGO_MANIFEST_DIR").expect("cargo sets CARGO_MANIFEST_DIR"),
            );
            here.join("../../crates/mengyubad/out")
        }
    };
    println!(
        "cargo:rerun-if-changed={}",
        folder.join("libmengyubad.a").display()
    );
    println!("cargo:rustc-link-search=native={}", folder.display());
    println!("cargo:rustc-link-lib=static=mengyubad");
}
