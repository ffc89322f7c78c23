//! Designs: their parts, their token lists and their texts.
use super::types::{Kind, Operator, Sort, Type};
use std::io::{self, Write};

#[derive(Clone)]
pub enum Shape {
    Max,
    Name,
    Or,
    Lex(Box<Shape>, Box<Shape>),
    Pair(Box<Shape>, Box<Shape>),
}

#[derive(Clone, Copy, PartialEq)]
pub enum Leaf {
    Arg(usize),
    Time,
    Replica,
    Zero,
    One,
    Pos(usize),
    Neg(usize),
    False,
    True,
}

#[derive(Clone, Copy, PartialEq)]
pub enum Tag {
    Cell,
    Table,
    Set,
    Tally,
    Tallies,
}

pub const ALL_TAGS: [Tag; 5] = [Tag::Cell, Tag::Table, Tag::Set, Tag::Tally, Tag::Tallies];

/// What an operation does to a component: a key, if there are keys, and leaves.
#[derive(Clone)]
pub struct Effect {
    pub key: Option<usize>,
    pub leaves: Vec<Leaf>,
}

#[derive(Clone)]
pub struct Component {
    pub tag: Tag,
    pub key: Option<Sort>,
    pub shape: Option<Shape>,
    /// Places among the constants.
    pub starts: Vec<usize>,
    pub effects: Vec<Option<Effect>>,
}

#[derive(Clone)]
pub enum Ask {
    Leaf(usize, usize, Option<usize>),
    Arg(usize),
    Number(usize),
    Name(usize),
    Truth(bool),
    Not(Box<Ask>),
    Two(Operator, Box<Ask>, Box<Ask>),
}

pub struct Design {
    pub components: Vec<Component>,
    pub asks: Vec<Ask>,
}

pub type Token = (u8, u16, u16);

impl Shape {
    pub fn leaves(&self, kinds: &mut Vec<Kind>) {
        match self {
            Shape::Max => kinds.push(Kind::Number),
            Shape::Name => kinds.push(Kind::Name),
            Shape::Or => kinds.push(Kind::Truth),
            Shape::Lex(a, b) | Shape::Pair(a, b) => {
                a.leaves(kinds);
                b.leaves(kinds);
            }
        }
    }

    pub fn tokens(&self, out: &mut Vec<Token>) {
        match self {
            Shape::Max => out.push((0, 0, 0)),
            Shape::Name => out.push((1, 0, 0)),
            Shape::Or => out.push((2, 0, 0)),
            Shape::Lex(a, b) => {
                out.push((3, 0, 0));
                a.tokens(out);
                b.tokens(out);
            }
            Shape::Pair(a, b) => {
                out.push((4, 0, 0));
                a.tokens(out);
                b.tokens(out);
            }
        }
    }
}

fn leaf_token(leaf: Leaf) -> Token {
    match leaf {
        Leaf::Arg(p) => (1, p as u16, 0),
        Leaf::Time => (2, 0, 0),
        Leaf::Replica => (3, 0, 0),
        Leaf::Zero => (4, 0, 0),
        Leaf::One => (5, 0, 0),
        Leaf::Pos(p) => (6, p as u16, 0),
        Leaf::Neg(p) => (7, p as u16, 0),
        Leaf::False => (8, 0, 0),
        Leaf::True => (9, 0, 0),
    }
}

impl Component {
    pub fn kinds(&self) -> Vec<Kind> {
        let mut kinds = Vec::new();
        match (&self.shape, self.tag) {
            (Some(shape), _) => shape.leaves(&mut kinds),
            (None, Tag::Set) => kinds.push(Kind::Truth),
            (None, _) => kinds.push(Kind::Number),
        }
        kinds
    }

    pub fn tokens(&self, out: &mut Vec<Token>) {
        out.push((1 + self.tag as u8, 0, 0));
        if let Some(key) = self.key {
            out.push((key as u8, 0, 0));
        }
        if let Some(shape) = &self.shape {
            shape.tokens(out);
        }
        out.extend(self.starts.iter().map(|s| (0, *s as u16, 0)));
        for effect in &self.effects {
            match effect {
                None => out.push((0, 0, 0)),
                Some(effect) => {
                    out.extend(effect.key.iter().map(|k| (1, *k as u16, 0)));
                    out.extend(effect.leaves.iter().map(|l| leaf_token(*l)));
                }
            }
        }
    }
}

impl Ask {
    pub fn tokens(&self, out: &mut Vec<Token>) {
        match self {
            Ask::Leaf(c, l, key) => out.push((0, (*c as u16) << 8 | *l as u16, key.map_or(0, |k| k as u16 + 1))),
            Ask::Arg(p) => out.push((1, *p as u16, 0)),
            Ask::Number(p) => out.push((2, *p as u16, 0)),
            Ask::Name(p) => out.push((3, *p as u16, 0)),
            Ask::Truth(b) => out.push((4, *b as u16, 0)),
            Ask::Not(a) => {
                out.push((5, 0, 0));
                a.tokens(out);
            }
            Ask::Two(op, a, b) => {
                out.push((6 + *op as u8, 0, 0));
                a.tokens(out);
                b.tokens(out);
            }
        }
    }
}

impl Design {
    pub fn tokens(&self) -> Vec<Token> {
        let mut out = Vec::new();
        self.components.iter().for_each(|c| c.tokens(&mut out));
        out.push((0, 0, 0));
        self.asks.iter().for_each(|a| a.tokens(&mut out));
        out
    }
}

// Printing.

fn operator_text(operator: Operator) -> &'static str {
    match operator {
        Operator::And => "and",
        Operator::Or => "or",
        Operator::Less => "<",
        Operator::Plus => "+",
        _ => "-",
    }
}

fn write_shape(out: &mut impl Write, shape: &Shape) -> io::Result<()> {
    match shape {
        Shape::Max => write!(out, "\"max\""),
        Shape::Name => write!(out, "\"name\""),
        Shape::Or => write!(out, "\"or\""),
        Shape::Lex(a, b) | Shape::Pair(a, b) => {
            write!(out, "[\"{}\",", if matches!(shape, Shape::Lex(..)) { "lex" } else { "pair" })?;
            write_shape(out, a)?;
            write!(out, ",")?;
            write_shape(out, b)?;
            write!(out, "]")
        }
    }
}

fn write_leaf(out: &mut impl Write, leaf: Leaf) -> io::Result<()> {
    match leaf {
        Leaf::Arg(p) => write!(out, "\"p{p}\""),
        Leaf::Time => write!(out, "\"time\""),
        Leaf::Replica => write!(out, "\"replica\""),
        Leaf::Zero => write!(out, "0"),
        Leaf::One => write!(out, "1"),
        Leaf::Pos(p) => write!(out, "\"pos{p}\""),
        Leaf::Neg(p) => write!(out, "\"neg{p}\""),
        Leaf::False => write!(out, "false"),
        Leaf::True => write!(out, "true"),
    }
}

fn write_list<T>(out: &mut impl Write, list: &[T], mut each: impl FnMut(&mut dyn Write, &T) -> io::Result<()>) -> io::Result<()> {
    let mut out: &mut dyn Write = out;
    write!(out, "[")?;
    for (i, x) in list.iter().enumerate() {
        if i > 0 {
            write!(out, ",")?;
        }
        each(&mut out, x)?;
    }
    write!(out, "]")
}

impl Type {
    fn write_component(&self, out: &mut impl Write, c: &Component) -> io::Result<()> {
        let tag = ["cell", "table", "set", "tally", "tallies"][c.tag as usize];
        write!(out, "[\"{tag}\",")?;
        if let Some(key) = c.key {
            write!(out, "\"{}\",", ["int", "nat", "name"][key as usize])?;
        }
        if let Some(shape) = &c.shape {
            write_shape(out, shape)?;
            write!(out, ",")?;
            let starts: Vec<(usize, Kind)> = c.starts.iter().copied().zip(c.kinds()).collect();
            write_list(out, &starts, |mut out, (place, kind)| match kind {
                Kind::Number => write!(out, "{}", self.numbers[*place]),
                Kind::Name => write!(&mut out, "\"{}\"", self.names[*place]),
                Kind::Truth => write!(out, "{}", self.truths[*place]),
            })?;
            write!(out, ",")?;
        }
        write_list(out, &c.effects, |mut out, effect| {
            let Some(effect) = effect else { return write!(out, "null") };
            match (effect.key, c.tag) {
                (Some(key), Tag::Set) => write!(out, "\"p{key}\""),
                (Some(key), Tag::Tallies) => {
                    write!(out, "[\"p{key}\",")?;
                    write_leaf(&mut out, effect.leaves[0])?;
                    write!(out, "]")
                }
                (Some(key), _) => {
                    write!(out, "[\"p{key}\",")?;
                    write_list(&mut out, &effect.leaves, |mut out, l| write_leaf(&mut out, *l))?;
                    write!(out, "]")
                }
                (None, Tag::Cell) => write_list(&mut out, &effect.leaves, |mut out, l| write_leaf(&mut out, *l)),
                (None, _) => write_leaf(&mut out, effect.leaves[0]),
            }
        })?;
        write!(out, "]")
    }

    pub fn write_design(&self, out: &mut impl Write, design: &Design) -> io::Result<()> {
        write!(out, "[")?;
        write_list(out, &design.components, |mut out, c| self.write_component(&mut out, c))?;
        write!(out, ",")?;
        write_list(out, &design.asks, |out, a| self.write_ask(out, a))?;
        write!(out, "]")
    }

    fn write_ask(&self, out: &mut dyn Write, ask: &Ask) -> io::Result<()> {
        match ask {
            Ask::Leaf(c, l, None) => write!(out, "[\"leaf\",{c},{l}]"),
            Ask::Leaf(c, l, Some(key)) => write!(out, "[\"leaf\",{c},{l},{key}]"),
            Ask::Arg(p) => write!(out, "[\"p\",{p}]"),
            Ask::Number(p) => write!(out, "{}", self.numbers[*p]),
            Ask::Name(p) => write!(out, "\"{}\"", self.names[*p]),
            Ask::Truth(b) => write!(out, "{b}"),
            Ask::Not(a) => {
                write!(out, "[\"not\",")?;
                self.write_ask(out, a)?;
                write!(out, "]")
            }
            Ask::Two(op, a, b) => {
                write!(out, "[\"{}\",", operator_text(*op))?;
                self.write_ask(out, a)?;
                write!(out, ",")?;
                self.write_ask(out, b)?;
                write!(out, "]")
            }
        }
    }
}
