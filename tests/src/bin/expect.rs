//! Prints what the command program prints for the job file given, by the reference alone; with a layout file behind it,
//! what the C example prints for a run begun from that layout.

use std::{env, fs};

use nest_tests::reference::print::printed;

fn main() {
    let read = |path: String| fs::read(path).expect("the file can be read");
    let mut files = env::args().skip(1).map(read);
    let job = files.next().expect("a job file");
    print!("{}", printed(&job, &files.next().unwrap_or_default()));
}
