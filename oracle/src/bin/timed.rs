//! `timed REPETITIONS`: the session on standard input on one driver of the Rust, that many times.
//! Prints the nanoseconds of all of them.

use oracle::image::Image;
use oracle::rust::plain::{calls, open, run};
use std::io::{stdin, Read};
use std::time::Instant;

fn main() {
    let repetitions: u32 = std::env::args().nth(1).and_then(|given| given.parse().ok()).expect("timed REPETITIONS");
    let mut input = vec![];
    stdin().read_to_end(&mut input).unwrap();
    let (image, records) = Image::read(&input).expect("an image");
    let calls = calls(records);
    let mut driver = open(&image);
    let start = Instant::now();
    (0..repetitions).for_each(|_| run(&mut driver, &calls));
    println!("{}", start.elapsed().as_nanos());
}
