//! Says where libnest.a stands: in the folder named by NEST_LIB_DIR. Only the programs that declare the
//! services link it (see src/nest.rs); the library and `expect` build without it.

use std::env;

fn main() {
    println!("cargo:rerun-if-env-changed=NEST_LIB_DIR");
    if let Ok(folder) = env::var("NEST_LIB_DIR") {
        println!("cargo:rustc-link-search=native={folder}");
        println!("cargo:rerun-if-changed={folder}/libnest.a");
    }
}
