//! Writes the image that a rule had before Wish 4, when its dots were every byte: one word to a line, in hex. examples/records/image-before is made so.
//! Usage: before RULE, a file

use outside_checks::dots::lines_of;
use outside_checks::independent::{image, parse_with, Class};

fn main() {
    let rule = std::fs::read(std::env::args().nth(1).expect("usage: before RULE")).expect("the rule");
    let tree = parse_with(Class::every(), &rule).expect("a rule");
    print!("{}", lines_of(&image(&tree)));
}
