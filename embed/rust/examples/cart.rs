//! Two replicas of a shopping cart: each does something, they exchange their states, and both answer alike.
//!     cart TYPE DESIGN
use katara::Replica;
use std::error::Error;
use std::{env, fs};

fn main() -> Result<(), Box<dyn Error>> {
    let words: Vec<String> = env::args().collect();
    let (ty, design) = (fs::read(&words[1])?, fs::read(&words[2])?);
    let mut here = Replica::open(&ty, &design, 1)?;
    let mut there = Replica::open(&ty, &design, 2)?;
    here.act("add", &["milk".into(), 2.into()])?;
    there.act("add", &["milk".into(), 3.into()])?;
    there.act("add", &["eggs".into(), 12.into()])?;
    let packet = there.state()?;
    for _ in 0..2 {
        here.merge(&packet)?; // once more changes nothing
    }
    for thing in ["milk", "eggs"] {
        println!("count {thing:?} = {}", here.ask("count", &[thing.into()])?);
    }
    Ok(())
}
