//! The library for C, called through tests/driver.c: the outside vectors, document 01's examples and limits, generated rules beside the independent
//! program, images from before a dot was without byte 10, texts in cuttings, spellings, and damaged images; number, count and everything lent.
//! Usage: library VECTORS EXAMPLES DRIVER (tests/library makes the driver)

mod build;
mod checks;
mod cuttings;
mod damage;
mod damaged;
mod dots;
mod masks;
mod mutations;
mod match_ends;
mod optional;
mod outside;
mod proposals;
mod read_back;
mod repeated;
mod seen;
mod spelled;
mod spelling;
mod stretches;
mod watch;

use checks::Checks;
use std::path::Path;
use std::process::exit;

fn main() {
    let arguments: Vec<String> = std::env::args().collect();
    let [_, folder, examples, driver] = &arguments[..] else {
        eprintln!("usage: library VECTORS EXAMPLES DRIVER");
        exit(2);
    };
    let mut checks = Checks::start(driver);
    outside::all(&mut checks, Path::new(folder));
    build::all(&mut checks);
    read_back::all(&mut checks, Path::new(folder));
    optional::all(&mut checks);
    repeated::all(&mut checks);
    dots::all(&mut checks, Path::new(examples));
    match_ends::all(&mut checks, Path::new(folder));
    watch::all(&mut checks);
    cuttings::all(&mut checks);
    spelling::all(&mut checks);
    mutations::all(&mut checks);
    proposals::all(&mut checks);
    stretches::all(&mut checks);
    damaged::all(&mut checks);
    exit(i32::from(!checks.tell()));
}
