use std::env;

fn main() {
    println!("cargo:rerun-if-env-changed=RYBOSTAN_LIB_DIR");
    let folder = env::var("RYBOSTAN_LIB_DIR").expect(
        "RYBOSTAN_LIB_DIR names the folder of librybostan.a; differ.sh and bench.sh set it",
    );
    println!("cargo:rerun-if-changed={folder}/librybostan.a");
    println!("cargo:rustc-link-search=native={folder}");
    println!("cargo:rustc-link-lib=static=rybostan");
}
