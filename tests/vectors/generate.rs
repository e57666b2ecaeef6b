//! Writes the stored vectors: for each program its standard input, and the output that it has to write. The answers come from
//! tests/outside/reference.rs, an implementation of documents 01 and 02 that shares no code with the library, those of the last 256 jobs
//! from monitor.rs itself and those of small traces from small.rs; the worked cases of both documents are written out by hand besides.
//!
//! Usage: generate FOLDER. Files: FOLDER/NAME/stdin and FOLDER/NAME/stdout.

mod analysis;
mod board;
mod case;
mod files;
mod lists;
mod monitor;
#[allow(dead_code)]
#[path = "../outside/reference.rs"]
mod reference;
mod run;
mod small;
mod text;
mod trace;

use case::Vectors;
use std::path::Path;

fn write(folder: &Path, name: &str, v: Vectors) {
    let place = folder.join(name);
    std::fs::create_dir_all(&place).unwrap();
    std::fs::write(place.join("stdin"), &v.stdin).unwrap();
    std::fs::write(place.join("stdout"), &v.stdout).unwrap();
    println!("{name}: {} cases", v.stdout.lines().count());
}

fn main() {
    let folder = std::env::args().nth(1).expect("the folder to write to");
    let folder = Path::new(&folder);
    write(folder, "vectors_trace", trace::vectors());
    write(folder, "vectors_files", files::vectors());
    write(folder, "vectors_analysis", analysis::vectors());
    write(folder, "vectors_run", run::vectors());
    write(folder, "vectors_text", text::vectors());
    write(folder, "vectors_monitor", monitor::vectors());
    write(folder, "vectors_board", board::vectors());
    write(folder, "vectors_small", small::vectors());
}
