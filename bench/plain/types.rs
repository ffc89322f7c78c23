//! Sequential types: their texts, and what they do. Fields, operations and queries have a line each.
use std::collections::BTreeMap;
use std::fmt;

#[derive(Clone, Copy, PartialEq)]
pub enum Sort {
    Int,
    Nat,
    Name,
    Bool,
}

#[derive(Clone, Copy, PartialEq)]
pub enum Kind {
    Number,
    Name,
    Truth,
}

pub fn kind(sort: Sort) -> Kind {
    match sort {
        Sort::Int | Sort::Nat => Kind::Number,
        Sort::Name => Kind::Name,
        Sort::Bool => Kind::Truth,
    }
}

/// A name of at most 15 bytes, which are kept as one number.
#[derive(Clone, Copy, PartialEq, Eq, PartialOrd, Ord)]
pub struct Name(u128);

impl Name {
    pub fn of(text: &str) -> Name {
        let mut bytes = [0; 16];
        bytes[1..=text.len()].copy_from_slice(text.as_bytes());
        Name(u128::from_be_bytes(bytes))
    }
}

impl fmt::Display for Name {
    fn fmt(&self, out: &mut fmt::Formatter) -> fmt::Result {
        let bytes = self.0.to_be_bytes();
        let text: String = bytes.iter().filter(|b| **b > 0).map(|b| *b as char).collect();
        out.write_str(&text)
    }
}

#[derive(Clone, Copy, PartialEq, Eq, PartialOrd, Ord)]
pub enum Value {
    Truth(bool),
    Number(i64),
    Name(Name),
}

impl Value {
    pub fn number(self) -> i64 {
        if let Value::Number(n) = self {
            n
        } else {
            0
        }
    }

    pub fn truth(self) -> bool {
        matches!(self, Value::Truth(true))
    }
}

#[derive(Clone, Copy)]
pub enum Operator {
    And,
    Or,
    Less,
    AtMost,
    Equal,
    Plus,
    Minus,
    Max,
    Min,
}

pub enum Expr {
    Constant(Value),
    Arg(usize),
    Field(usize),
    /// A table at a key parameter.
    Entry(usize, usize),
    Not(Box<Expr>),
    If(Box<Expr>, Box<Expr>, Box<Expr>),
    Two(Operator, Box<Expr>, Box<Expr>),
}

pub struct Field {
    pub name: String,
    pub is_table: bool,
    pub start: Value,
}

pub enum RankElement {
    Digit(i64),
    Time,
    Replica,
    Arg(usize),
}

/// What an operation assigns: to a field, or to a table at a key parameter.
pub struct Assign {
    pub field: usize,
    pub key: Option<usize>,
    pub right: Expr,
}

pub struct Op {
    pub sorts: Vec<Sort>,
    pub rank: Vec<RankElement>,
    pub assigns: Vec<Assign>,
}

pub struct Query {
    pub sorts: Vec<Sort>,
    pub sort: Sort,
    pub right: Expr,
}

#[derive(Default)]
pub struct Type {
    pub fields: Vec<Field>,
    pub ops: Vec<Op>,
    pub queries: Vec<Query>,
    /// The constants that designs may have.
    pub numbers: Vec<i64>,
    pub names: Vec<Name>,
    pub truths: Vec<bool>,
}

/// An operation or a query, with arguments.
pub struct Call {
    pub item: usize,
    pub args: Vec<Value>,
}

/// An operation done.
#[derive(Clone, Copy)]
pub struct Done<'a> {
    pub replica: u32,
    pub time: u64,
    pub call: &'a Call,
}

/// What a state has of a field: its value, or the entries of a table that differ from the start or did.
#[derive(Clone)]
pub enum Slot {
    Plain(Value),
    Table(BTreeMap<Value, Value>),
}

impl Expr {
    pub fn value(&self, ty: &Type, state: &[Slot], args: &[Value]) -> Value {
        match self {
            Expr::Constant(value) => *value,
            Expr::Arg(p) => args[*p],
            Expr::Field(field) => ty.read(state, *field, None),
            Expr::Entry(table, p) => ty.read(state, *table, Some(args[*p])),
            Expr::Not(a) => Value::Truth(!a.value(ty, state, args).truth()),
            Expr::If(test, a, b) if test.value(ty, state, args).truth() => a.value(ty, state, args),
            Expr::If(_, _, b) => b.value(ty, state, args),
            Expr::Two(operator, a, b) => operator.of(a.value(ty, state, args), b.value(ty, state, args)),
        }
    }
}

impl Operator {
    pub fn of(self, a: Value, b: Value) -> Value {
        match self {
            Operator::And => Value::Truth(a.truth() && b.truth()),
            Operator::Or => Value::Truth(a.truth() || b.truth()),
            Operator::Less => Value::Truth(a < b),
            Operator::AtMost => Value::Truth(a <= b),
            Operator::Equal => Value::Truth(a == b),
            Operator::Plus => Value::Number(a.number() + b.number()),
            Operator::Minus => Value::Number(a.number() - b.number()),
            Operator::Max => a.max(b),
            Operator::Min => a.min(b),
        }
    }
}

impl Type {
    fn read(&self, state: &[Slot], field: usize, key: Option<Value>) -> Value {
        match (&state[field], key) {
            (Slot::Plain(value), _) => *value,
            (Slot::Table(entries), Some(key)) => entries.get(&key).copied().unwrap_or(self.fields[field].start),
            (Slot::Table(_), None) => self.fields[field].start,
        }
    }

    pub fn start(&self) -> Vec<Slot> {
        let slot = |f: &Field| if f.is_table { Slot::Table(BTreeMap::new()) } else { Slot::Plain(f.start) };
        self.fields.iter().map(slot).collect()
    }

    pub fn step(&self, state: &mut [Slot], call: &Call) {
        let op = &self.ops[call.item];
        let rights: Vec<Value> = op.assigns.iter().map(|a| a.right.value(self, state, &call.args)).collect();
        for (assign, value) in op.assigns.iter().zip(rights) {
            match (&mut state[assign.field], assign.key) {
                (Slot::Table(entries), Some(p)) => {
                    entries.insert(call.args[p], value);
                }
                (slot, _) => *slot = Slot::Plain(value),
            }
        }
    }

    pub fn answer(&self, state: &[Slot], ask: &Call) -> Value {
        self.queries[ask.item].right.value(self, state, &ask.args)
    }

    pub fn rank(&self, done: &Done) -> Vec<Value> {
        let element = |e: &RankElement| match e {
            RankElement::Digit(d) => Value::Number(*d),
            RankElement::Time => Value::Number(done.time as i64),
            RankElement::Replica => Value::Number(done.replica.into()),
            RankElement::Arg(p) => done.call.args[*p],
        };
        self.ops[done.call.item].rank.iter().map(element).collect()
    }
}

// Reading.

#[derive(Clone, Copy, PartialEq)]
enum Token<'a> {
    Word(&'a str),
    Number(i64),
    Name(&'a str),
    Sign(&'a str),
}

/// The tokens of a line.
fn tokens(line: &str) -> Option<Vec<Token<'_>>> {
    let mut found = Vec::new();
    let mut rest = line.split('#').next()?.trim_start();
    while let Some(first) = rest.chars().next() {
        let run = |is: fn(char) -> bool| rest.find(|c| !is(c)).unwrap_or(rest.len());
        let (token, len) = if first.is_ascii_digit() {
            let len = run(|c| c.is_ascii_digit());
            (Token::Number(rest[..len].parse().ok()?), len)
        } else if first.is_ascii_alphabetic() || first == '_' {
            let len = run(|c| c.is_ascii_alphanumeric() || c == '_');
            (Token::Word(&rest[..len]), len)
        } else if first == '"' {
            let len = rest[1..].find('"')?;
            (Token::Name(&rest[1..=len]), len + 2)
        } else {
            let len = if [":=", "<=", "->"].iter().any(|s| rest.starts_with(s)) { 2 } else { 1 };
            (Token::Sign(&rest[..len]), len)
        };
        found.push(token);
        rest = rest[len..].trim_start();
    }
    Some(found)
}

/// Reads the tokens of one line. Parameters are those of the operation or query.
struct Reader<'a> {
    tokens: Vec<Token<'a>>,
    at: usize,
    fields: &'a [Field],
    params: Vec<&'a str>,
}

impl<'a> Reader<'a> {
    fn next(&mut self) -> Option<Token<'a>> {
        self.at += 1;
        self.tokens.get(self.at - 1).copied()
    }

    /// Passes over a token, if it is here.
    fn takes(&mut self, token: Token) -> bool {
        let stands = self.tokens.get(self.at) == Some(&token);
        self.at += usize::from(stands);
        stands
    }

    fn word(&mut self) -> Option<&'a str> {
        if let Token::Word(word) = self.next()? {
            Some(word)
        } else {
            None
        }
    }

    fn sort(&mut self) -> Option<Sort> {
        match self.word()? {
            "int" => Some(Sort::Int),
            "nat" => Some(Sort::Nat),
            "name" => Some(Sort::Name),
            "bool" => Some(Sort::Bool),
            _ => None,
        }
    }

    fn field(&self, word: &str) -> Option<usize> {
        self.fields.iter().position(|f| f.name == word)
    }

    fn param(&self, word: &str) -> Option<usize> {
        self.params.iter().position(|p| *p == word)
    }

    /// A key in brackets, if one is here.
    fn key(&mut self) -> Option<usize> {
        if !self.takes(Token::Sign("[")) {
            return None;
        }
        let word = self.word()?;
        self.takes(Token::Sign("]"));
        self.param(word)
    }

    fn constant(&mut self) -> Option<Value> {
        match self.next()? {
            Token::Number(n) => Some(Value::Number(n)),
            Token::Name(name) => Some(Value::Name(Name::of(name))),
            Token::Word("true") => Some(Value::Truth(true)),
            Token::Word("false") => Some(Value::Truth(false)),
            Token::Sign("-") => self.constant().map(|v| Value::Number(-v.number())),
            _ => None,
        }
    }

    /// A chain of operators of one level over parts of the next one.
    fn chain(&mut self, operators: &[(Token, Operator)], part: fn(&mut Self) -> Option<Expr>) -> Option<Expr> {
        let mut whole = part(self)?;
        while let Some((_, operator)) = operators.iter().find(|(token, _)| self.takes(*token)) {
            whole = Expr::Two(*operator, Box::new(whole), Box::new(part(self)?));
        }
        Some(whole)
    }

    fn expr(&mut self) -> Option<Expr> {
        if !self.takes(Token::Word("if")) {
            return self.chain(&[(Token::Word("or"), Operator::Or)], Reader::conjunction);
        }
        let test = self.expr()?;
        self.takes(Token::Word("then"));
        let yes = self.expr()?;
        self.takes(Token::Word("else"));
        Some(Expr::If(Box::new(test), Box::new(yes), Box::new(self.expr()?)))
    }

    fn conjunction(&mut self) -> Option<Expr> {
        self.chain(&[(Token::Word("and"), Operator::And)], Reader::negation)
    }

    fn negation(&mut self) -> Option<Expr> {
        if self.takes(Token::Word("not")) {
            return Some(Expr::Not(Box::new(self.negation()?)));
        }
        let comparisons =
            [(Token::Sign("<="), Operator::AtMost), (Token::Sign("<"), Operator::Less), (Token::Sign("="), Operator::Equal)];
        self.chain(&comparisons, Reader::sum)
    }

    fn sum(&mut self) -> Option<Expr> {
        self.chain(&[(Token::Sign("+"), Operator::Plus), (Token::Sign("-"), Operator::Minus)], Reader::primary)
    }

    fn primary(&mut self) -> Option<Expr> {
        match *self.tokens.get(self.at)? {
            Token::Sign("(") => self.parenthesis(),
            Token::Word("max") => self.pair(Operator::Max),
            Token::Word("min") => self.pair(Operator::Min),
            Token::Word("true" | "false") | Token::Number(_) | Token::Name(_) | Token::Sign(_) => {
                self.constant().map(Expr::Constant)
            }
            Token::Word(word) => {
                self.at += 1;
                match (self.param(word), self.key()) {
                    (Some(p), _) => Some(Expr::Arg(p)),
                    (None, Some(p)) => Some(Expr::Entry(self.field(word)?, p)),
                    (None, None) => Some(Expr::Field(self.field(word)?)),
                }
            }
        }
    }

    fn parenthesis(&mut self) -> Option<Expr> {
        self.at += 1;
        let inner = self.expr();
        self.takes(Token::Sign(")"));
        inner
    }

    fn pair(&mut self, operator: Operator) -> Option<Expr> {
        self.at += 2;
        let a = self.expr()?;
        self.takes(Token::Sign(","));
        let b = self.expr()?;
        self.takes(Token::Sign(")"));
        Some(Expr::Two(operator, Box::new(a), Box::new(b)))
    }

    /// Parameters in parentheses. Their sorts are given.
    fn parameters(&mut self) -> Option<Vec<Sort>> {
        let mut sorts = Vec::new();
        self.takes(Token::Sign("("));
        while !self.takes(Token::Sign(")")) {
            let word = self.word()?;
            self.params.push(word);
            self.takes(Token::Sign(":"));
            sorts.push(self.sort()?);
            self.takes(Token::Sign(","));
        }
        Some(sorts)
    }

    fn rank_element(&mut self) -> Option<RankElement> {
        match self.next()? {
            Token::Number(digit) => Some(RankElement::Digit(digit)),
            Token::Word("time") => Some(RankElement::Time),
            Token::Word("replica") => Some(RankElement::Replica),
            Token::Word(word) => self.param(word).map(RankElement::Arg),
            _ => None,
        }
    }

    fn assign(&mut self) -> Option<Assign> {
        let word = self.word()?;
        let key = self.key();
        self.takes(Token::Sign(":="));
        Some(Assign { field: self.field(word)?, key, right: self.expr()? })
    }

    fn a_field(&mut self) -> Option<Field> {
        let name = self.word()?.to_string();
        self.takes(Token::Sign(":"));
        let is_table = self.takes(Token::Word("table"));
        if is_table {
            self.sort()?;
            self.takes(Token::Sign("->"));
        }
        self.sort()?;
        self.takes(Token::Sign("="));
        Some(Field { name, is_table, start: self.constant()? })
    }

    fn an_op(&mut self) -> Option<Op> {
        self.word()?;
        let sorts = self.parameters()?;
        self.takes(Token::Word("rank"));
        let mut rank = vec![self.rank_element()?];
        while self.takes(Token::Sign(",")) {
            rank.push(self.rank_element()?);
        }
        self.takes(Token::Sign(":"));
        let mut assigns = vec![self.assign()?];
        while self.takes(Token::Sign(";")) {
            assigns.push(self.assign()?);
        }
        Some(Op { sorts, rank, assigns })
    }

    fn a_query(&mut self) -> Option<Query> {
        self.word()?;
        let sorts = self.parameters()?;
        self.takes(Token::Sign(":"));
        let sort = self.sort()?;
        self.takes(Token::Sign("="));
        Some(Query { sorts, sort, right: self.expr()? })
    }
}

impl Type {
    pub fn from_text(text: &str) -> Option<Type> {
        let mut ty = Type { numbers: vec![0], names: vec![Name::of("")], truths: vec![false], ..Type::default() };
        for line in text.lines() {
            let mut reader = Reader { tokens: tokens(line)?, at: 1, fields: &ty.fields, params: Vec::new() };
            match reader.tokens.first() {
                Some(Token::Word("state")) => {
                    let field = reader.a_field()?;
                    ty.note(field.start);
                    ty.fields.push(field);
                }
                Some(Token::Word("op")) => {
                    let op = reader.an_op()?;
                    ty.ops.push(op);
                }
                Some(Token::Word("query")) => {
                    let query = reader.a_query()?;
                    ty.queries.push(query);
                }
                _ => {}
            }
        }
        Some(ty)
    }

    /// Takes a start value to the constants of designs, if it isn't one.
    fn note(&mut self, start: Value) {
        match start {
            Value::Number(n) if !self.numbers.contains(&n) => self.numbers.push(n),
            Value::Name(name) if !self.names.contains(&name) => self.names.push(name),
            Value::Truth(true) if self.truths.len() == 1 => self.truths.push(true),
            _ => {}
        }
    }
}
