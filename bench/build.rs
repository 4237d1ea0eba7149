//! Links libresidues.a of the directory that RESIDUES_LIB_DIR names. Where OLD_RESIDUES_DIR names that of libold_residues.a, an
//! older libresidues.a whose symbols begin with old_, links it to be timed in place of the plain program. Where FLINT_CALLS_DIR
//! names that of libflint_calls.a, which is flint.c compiled, links it and FLINT.

fn main() {
    let directory = std::env::var("RESIDUES_LIB_DIR").expect("RESIDUES_LIB_DIR names the directory of libresidues.a");
    println!("cargo:rerun-if-env-changed=RESIDUES_LIB_DIR");
    println!("cargo:rerun-if-changed={directory}/libresidues.a");
    println!("cargo:rustc-link-search=native={directory}");
    println!("cargo:rustc-link-lib=static=residues");
    println!("cargo:rustc-check-cfg=cfg(old)");
    println!("cargo:rerun-if-env-changed=OLD_RESIDUES_DIR");
    if let Ok(directory) = std::env::var("OLD_RESIDUES_DIR") {
        println!("cargo:rerun-if-changed={directory}/libold_residues.a");
        println!("cargo:rustc-cfg=old");
        println!("cargo:rustc-link-search=native={directory}");
        println!("cargo:rustc-link-lib=static=old_residues");
    }
    println!("cargo:rustc-check-cfg=cfg(flint)");
    println!("cargo:rerun-if-env-changed=FLINT_CALLS_DIR");
    if let Ok(directory) = std::env::var("FLINT_CALLS_DIR") {
        println!("cargo:rerun-if-changed={directory}/libflint_calls.a");
        println!("cargo:rustc-cfg=flint");
        println!("cargo:rustc-link-search=native={directory}");
        println!("cargo:rustc-link-lib=static=flint_calls");
        println!("cargo:rustc-link-lib=flint");
    }
}
