// A plain program that does what `katara list TYPE --size N --designs M` does, as a user would write it: it makes all
// designs of each size by recursion, sorts them by their token lists, and prints them. std only. It is the yardstick
// of listing.sh.
mod plain;

use plain::designs::ALL_TAGS;
use plain::listing::designs;
use plain::types::Type;
use std::io::{self, BufWriter, Write};
use std::{env, fs};

fn main() -> io::Result<()> {
    let words: Vec<String> = env::args().collect();
    let ty = Type::from_text(&fs::read_to_string(&words[1])?).expect("a type");
    let size: usize = words[2].parse().expect("a size");
    let most: usize = words[3].parse().expect("a number of designs");
    // with a fourth word the designs are made and not printed
    let prints = words.len() < 5;
    let mut out = BufWriter::new(io::stdout().lock());
    let mut number = 0;
    for own in 1..=size {
        for design in designs(&ty, own, &ALL_TAGS) {
            number += 1;
            if number > most {
                return out.flush();
            }
            if prints {
                write!(out, "{number} ")?;
                ty.write_design(&mut out, &design)?;
                writeln!(out)?;
            }
        }
    }
    if !prints {
        writeln!(out, "{number}")?;
    }
    out.flush()
}
