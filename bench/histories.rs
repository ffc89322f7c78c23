// A plain program that compares three designs with their types on all histories, as a user would write it: std only, an
// interpreter of types and designs. It is the yardstick of histories.sh. The words are the name of a type, and how many times its
// design is compared.
mod plain;

use plain::designs::{Ask, Component, Design, Effect, Leaf, Shape, Tag};
use plain::histories::Histories;
use plain::types::{Sort, Type};
use std::env;

const REGISTER: &str = "
type register
state v: int = 0
op set(x: int) rank time, replica: v := x
query get(): int = v
";

const CART: &str = "
type cart
state c: table name -> nat = 0
op add(x: name, n: nat) rank 0: c[x] := c[x] + n
query count(x: name): nat = c[x]
";

const ELEMENT_SET: &str = "
type element_set
state s: table name -> bool = false
op insert(x: name) rank time, 1: s[x] := true
op remove(x: name) rank time, 0: s[x] := false
query contains(x: name): bool = s[x]
";

fn effect(key: Option<usize>, leaves: &[Leaf]) -> Option<Effect> {
    Some(Effect { key, leaves: leaves.to_vec() })
}

/// A cell of the time, the replica and the value.
fn register() -> Design {
    let tail = Shape::Lex(Box::new(Shape::Max), Box::new(Shape::Max));
    let cell = Component {
        tag: Tag::Cell,
        key: None,
        shape: Some(Shape::Lex(Box::new(Shape::Max), Box::new(tail))),
        starts: vec![0, 0, 0],
        effects: vec![effect(None, &[Leaf::Time, Leaf::Replica, Leaf::Arg(0)])],
    };
    Design { components: vec![cell], asks: vec![Ask::Leaf(0, 2, None)] }
}

/// A sum for each key and replica.
fn cart() -> Design {
    let tallies = Component {
        tag: Tag::Tallies,
        key: Some(Sort::Name),
        shape: None,
        starts: Vec::new(),
        effects: vec![effect(Some(0), &[Leaf::Arg(1)])],
    };
    Design { components: vec![tallies], asks: vec![Ask::Leaf(0, 0, Some(0))] }
}

/// A time and a truth value for each key.
fn element_set() -> Design {
    let table = Component {
        tag: Tag::Table,
        key: Some(Sort::Name),
        shape: Some(Shape::Lex(Box::new(Shape::Max), Box::new(Shape::Or))),
        starts: vec![0, 0],
        effects: vec![effect(Some(0), &[Leaf::Time, Leaf::True]), effect(Some(0), &[Leaf::Time, Leaf::False])],
    };
    Design { components: vec![table], asks: vec![Ask::Leaf(0, 1, Some(0))] }
}

fn main() {
    let words: Vec<String> = env::args().collect();
    let (name, rounds) = (&words[1], words[2].parse().expect("a number"));
    let (text, design) = match name.as_str() {
        "register" => (REGISTER, register()),
        "cart" => (CART, cart()),
        _ => (ELEMENT_SET, element_set()),
    };
    let ty = Type::from_text(text).expect("a type");
    let mut found = None;
    for _ in 0..rounds {
        found = Histories::new(&ty).first_difference(&ty, &design);
    }
    let len = Histories::new(&ty).len();
    match found {
        Some(number) => println!("{name}: differs on history {number} of {len}"),
        None => println!("{name}: differs on none of {len}"),
    }
}
