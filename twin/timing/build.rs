//! Links the archive that stands in the folder ARCHIVE, and an earlier version's, told apart by
//! `bench`, in the folder BEFORE if there is one.

fn main() {
    let folder = std::env::var("ARCHIVE").expect("ARCHIVE names the folder of libface.a");
    link(&folder, "face");
    println!("cargo::rustc-check-cfg=cfg(before)");
    if let Ok(folder) = std::env::var("BEFORE") {
        link(&folder, "before");
        println!("cargo::rustc-cfg=before");
    }
    println!("cargo::rerun-if-env-changed=ARCHIVE");
    println!("cargo::rerun-if-env-changed=BEFORE");
}

fn link(folder: &str, name: &str) {
    println!("cargo::rustc-link-search=native={folder}");
    println!("cargo::rustc-link-lib=static={name}");
    println!("cargo::rerun-if-changed={folder}/lib{name}.a");
}
