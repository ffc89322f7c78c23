//! States of designs: what operations leave in them, and what they answer.
use super::designs::{Ask, Component, Design, Effect, Leaf, Shape, Tag};
use super::types::{Call, Done, Kind, Type, Value};
use std::collections::{BTreeMap, BTreeSet};

/// What a state has of a component.
pub enum Part {
    Cell(Vec<Value>),
    Table(BTreeMap<Value, Vec<Value>>),
    Set(BTreeSet<Value>),
    Tally(BTreeMap<u32, i64>),
    Tallies(BTreeMap<Value, BTreeMap<u32, i64>>),
}

impl Shape {
    fn count(&self) -> usize {
        match self {
            Shape::Max | Shape::Name | Shape::Or => 1,
            Shape::Lex(a, b) | Shape::Pair(a, b) => a.count() + b.count(),
        }
    }

    /// Joins a value to another.
    fn join(&self, mine: &mut [Value], other: &[Value]) {
        match self {
            Shape::Max | Shape::Name | Shape::Or => mine[0] = mine[0].max(other[0]),
            Shape::Pair(a, b) => {
                let front = a.count();
                a.join(&mut mine[..front], &other[..front]);
                b.join(&mut mine[front..], &other[front..]);
            }
            Shape::Lex(a, b) => {
                let front = a.count();
                if mine[..front] == other[..front] {
                    b.join(&mut mine[front..], &other[front..]);
                } else if mine[..front] < other[..front] {
                    mine.copy_from_slice(other);
                }
            }
        }
    }
}

impl Leaf {
    fn value(self, done: &Done) -> Value {
        match self {
            Leaf::Arg(p) => done.call.args[p],
            Leaf::Time => Value::Number(done.time as i64),
            Leaf::Replica => Value::Number(done.replica.into()),
            Leaf::Zero => Value::Number(0),
            Leaf::One => Value::Number(1),
            Leaf::Pos(p) => Value::Number(done.call.args[p].number().max(0)),
            Leaf::Neg(p) => Value::Number((-done.call.args[p].number()).max(0)),
            Leaf::False => Value::Truth(false),
            Leaf::True => Value::Truth(true),
        }
    }
}

impl Effect {
    fn key(&self, done: &Done) -> Value {
        self.key.map_or(Value::Number(0), |p| done.call.args[p])
    }

    fn values(&self, done: &Done) -> Vec<Value> {
        self.leaves.iter().map(|l| l.value(done)).collect()
    }
}

impl Component {
    /// The start of a cell, or of an entry of a table.
    fn start(&self, ty: &Type) -> Vec<Value> {
        let constant = |(place, kind): (&usize, Kind)| match kind {
            Kind::Number => Value::Number(ty.numbers[*place]),
            Kind::Name => Value::Name(ty.names[*place]),
            Kind::Truth => Value::Truth(ty.truths[*place]),
        };
        self.starts.iter().zip(self.kinds()).map(constant).collect()
    }

    fn new_part(&self, ty: &Type) -> Part {
        match self.tag {
            Tag::Cell => Part::Cell(self.start(ty)),
            Tag::Table => Part::Table(BTreeMap::new()),
            Tag::Set => Part::Set(BTreeSet::new()),
            Tag::Tally => Part::Tally(BTreeMap::new()),
            Tag::Tallies => Part::Tallies(BTreeMap::new()),
        }
    }

    fn join(&self, mine: &mut [Value], other: &[Value]) {
        if let Some(shape) = &self.shape {
            shape.join(mine, other);
        }
    }

    fn apply(&self, ty: &Type, part: &mut Part, done: &Done) {
        let Some(effect) = &self.effects[done.call.item] else { return };
        match part {
            Part::Cell(leaves) => self.join(leaves, &effect.values(done)),
            Part::Table(entries) => {
                let leaves = entries.entry(effect.key(done)).or_insert_with(|| self.start(ty));
                self.join(leaves, &effect.values(done));
            }
            Part::Set(keys) => {
                keys.insert(effect.key(done));
            }
            Part::Tally(sums) => *sums.entry(done.replica).or_default() += effect.leaves[0].value(done).number(),
            Part::Tallies(entries) => {
                let sums = entries.entry(effect.key(done)).or_default();
                *sums.entry(done.replica).or_default() += effect.leaves[0].value(done).number();
            }
        }
    }

    fn read(&self, ty: &Type, part: &Part, leaf: usize, key: Option<Value>) -> Value {
        let key = key.unwrap_or(Value::Number(0));
        match part {
            Part::Cell(leaves) => leaves[leaf],
            Part::Table(entries) => match entries.get(&key) {
                Some(leaves) => leaves[leaf],
                None => self.start(ty)[leaf],
            },
            Part::Set(keys) => Value::Truth(keys.contains(&key)),
            Part::Tally(sums) => Value::Number(sums.values().sum()),
            Part::Tallies(entries) => Value::Number(entries.get(&key).map_or(0, |sums| sums.values().sum())),
        }
    }
}

impl Design {
    /// The state after operations.
    pub fn state_after(&self, ty: &Type, ops: &[Done]) -> Vec<Part> {
        let part = |c: &Component| {
            let mut part = c.new_part(ty);
            ops.iter().for_each(|done| c.apply(ty, &mut part, done));
            part
        };
        self.components.iter().map(part).collect()
    }

    pub fn answer(&self, ty: &Type, state: &[Part], ask: &Call) -> Value {
        self.value(ty, state, &self.asks[ask.item], &ask.args)
    }

    fn value(&self, ty: &Type, state: &[Part], ask: &Ask, args: &[Value]) -> Value {
        match ask {
            Ask::Leaf(c, l, key) => self.components[*c].read(ty, &state[*c], *l, key.map(|p| args[p])),
            Ask::Arg(p) => args[*p],
            Ask::Number(place) => Value::Number(ty.numbers[*place]),
            Ask::Name(place) => Value::Name(ty.names[*place]),
            Ask::Truth(b) => Value::Truth(*b),
            Ask::Not(a) => Value::Truth(!self.value(ty, state, a, args).truth()),
            Ask::Two(operator, a, b) => operator.of(self.value(ty, state, a, args), self.value(ty, state, b, args)),
        }
    }
}
