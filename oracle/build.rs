//! Takes the original's fold of a template out of its file, where it is private, so that its pace can be counted.

use std::path::Path;
use std::{env, fs};

const MODEL: &str = "../../shared/docs/src/crates/ciplink-sim/src/model.rs";

fn main() {
    println!("cargo:rerun-if-changed={MODEL}");
    let model = fs::read_to_string(MODEL).expect("the original stands beside this repository");
    let start = model.find("fn structure_handle(").expect("it has the fold");
    let end = start + model[start..].find("\n}\n").expect("the fold ends") + 3;
    let out = env::var("OUT_DIR").expect("cargo says where");
    fs::write(Path::new(&out).join("fold.rs"), format!("pub {}", &model[start..end])).expect("it can be written");
}
