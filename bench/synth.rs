// A plain program that goes over the designs of a type as `katara synth` does, as a user would write it: it lists the designs of
// each size, compares each with the type on the histories that refuted earlier ones and then on all, and proves nothing. std
// only. It stops at the design with which so many passed, and prints the numbers of those that passed, how many didn't, and the
// last design. It is the yardstick of synth.sh. The words: the type's file, the greatest size, how many designs pass, and kinds of
// components, where not all are meant.
mod plain;

use plain::designs::{Design, Tag, ALL_TAGS};
use plain::histories::Histories;
use plain::listing::designs;
use plain::types::{Done, Type, Value};
use std::io::{self, Write};
use std::{env, fs};

/// A history, and the answers of the type that a design must give.
struct Card<'a> {
    ops: Vec<Done<'a>>,
    answers: Option<Vec<Value>>,
}

struct Search<'a> {
    ty: &'a Type,
    histories: &'a Histories,
    /// The histories that were looked at.
    cards: Vec<Card<'a>>,
    /// Those on which a design differed, in the order in which they were found.
    cited: Vec<usize>,
}

impl Search<'_> {
    fn differs(&mut self, design: &Design, number: usize) -> bool {
        while self.cards.len() <= number {
            let ops = self.histories.get(self.cards.len());
            let answers = self.histories.answers(self.ty, &ops);
            self.cards.push(Card { ops, answers });
        }
        let card = &self.cards[number];
        let Some(answers) = &card.answers else { return true };
        let state = design.state_after(self.ty, &card.ops);
        self.histories.asks.iter().zip(answers).any(|(ask, answer)| design.answer(self.ty, &state, ask) != *answer)
    }

    /// Whether the design differs on no history.
    fn passes(&mut self, design: &Design) -> bool {
        if (0..self.cited.len()).any(|i| self.differs(design, self.cited[i])) {
            return false;
        }
        let found = (0..self.histories.len()).find(|number| self.differs(design, *number));
        self.cited.extend(found);
        found.is_none()
    }
}

fn tag(word: &str) -> Option<Tag> {
    ["cell", "table", "set", "tally", "tallies"].iter().position(|name| *name == word).map(|place| ALL_TAGS[place])
}

fn main() -> io::Result<()> {
    let words: Vec<String> = env::args().collect();
    let ty = Type::from_text(&fs::read_to_string(&words[1])?).expect("a type");
    let size: usize = words[2].parse().expect("a size");
    let wanted: usize = words[3].parse().expect("how many designs pass");
    let tags: Vec<Tag> = words.get(4).map_or(ALL_TAGS.to_vec(), |kinds| kinds.split(',').filter_map(tag).collect());
    let histories = Histories::new(&ty);
    let mut search = Search { ty: &ty, histories: &histories, cards: Vec::new(), cited: Vec::new() };
    let (mut number, mut passed) = (0, Vec::new());
    for design in (1..=size).flat_map(|own| designs(&ty, own, &tags)) {
        number += 1;
        if !search.passes(&design) {
            continue;
        }
        passed.push(number);
        if passed.len() == wanted {
            let mut out = io::stdout().lock();
            write!(out, "{passed:?} {} ", number - passed.len())?;
            ty.write_design(&mut out, &design)?;
            return writeln!(out);
        }
    }
    println!("{passed:?} {}", number - passed.len());
    Ok(())
}
