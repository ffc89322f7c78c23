//! Histories: what two replicas do by at most three operations, and whether a design answers otherwise than its type.
use super::designs::Design;
use super::types::{Call, Done, Name, Slot, Sort, Type, Value};

/// The most histories that are gone over.
pub const LIMIT: usize = 50_000;

/// Replicas and times.
const STAMPS: [(u32, u64); 6] = [(1, 1), (2, 1), (1, 2), (2, 2), (1, 3), (2, 3)];

/// All orders of so many operations.
const ORDERS: [&[&[usize]]; 4] =
    [&[&[]], &[&[0]], &[&[0, 1], &[1, 0]], &[&[0, 1, 2], &[0, 2, 1], &[1, 0, 2], &[1, 2, 0], &[2, 0, 1], &[2, 1, 0]]];

fn pool(sort: Sort) -> Vec<Value> {
    match sort {
        Sort::Int => (-1..=2).map(Value::Number).collect(),
        Sort::Nat => (0..=2).map(Value::Number).collect(),
        Sort::Name => ["a", "b"].into_iter().map(|n| Value::Name(Name::of(n))).collect(),
        Sort::Bool => vec![Value::Truth(false), Value::Truth(true)],
    }
}

/// The calls of an item with these parameters.
fn calls_of(item: usize, sorts: &[Sort]) -> Vec<Call> {
    let mut rows = vec![Vec::new()];
    for sort in sorts {
        let longer = |row: &Vec<Value>| -> Vec<Vec<Value>> {
            pool(*sort).into_iter().map(|value| row.iter().copied().chain([value]).collect()).collect()
        };
        rows = rows.iter().flat_map(longer).collect();
    }
    rows.into_iter().map(|args| Call { item, args }).collect()
}

/// All choices of so many of the stamps, in their order.
fn choices(count: usize, stamps: &[(u32, u64)]) -> Vec<Vec<(u32, u64)>> {
    if count == 0 {
        return vec![Vec::new()];
    }
    let mut found = Vec::new();
    for (i, first) in stamps.iter().enumerate() {
        for rest in choices(count - 1, &stamps[i + 1..]) {
            found.push([vec![*first], rest].concat());
        }
    }
    found
}

/// The histories of a type, in order, and what its queries are asked.
pub struct Histories {
    calls: Vec<Call>,
    pub asks: Vec<Call>,
    /// The stamps of histories of no, one, two and three operations.
    stamps: Vec<Vec<Vec<(u32, u64)>>>,
}

impl Histories {
    pub fn new(ty: &Type) -> Histories {
        Histories {
            calls: ty.ops.iter().enumerate().flat_map(|(i, op)| calls_of(i, &op.sorts)).collect(),
            asks: ty.queries.iter().enumerate().flat_map(|(i, q)| calls_of(i, &q.sorts)).collect(),
            stamps: (0..4).map(|count| choices(count, &STAMPS)).collect(),
        }
    }

    /// How many there are with so many operations.
    fn block(&self, count: usize) -> usize {
        self.stamps[count].len() * self.calls.len().pow(count as u32)
    }

    pub fn len(&self) -> usize {
        (0..4).map(|count| self.block(count)).sum::<usize>().min(LIMIT)
    }

    pub fn get(&self, number: usize) -> Vec<Done<'_>> {
        let (mut count, mut rest) = (0, number);
        while rest >= self.block(count) {
            rest -= self.block(count);
            count += 1;
        }
        let mut weight = self.calls.len().pow(count as u32);
        let stamps = &self.stamps[count][rest / weight];
        let done = |(replica, time): &(u32, u64)| {
            weight /= self.calls.len();
            let call = &self.calls[rest / weight % self.calls.len()];
            Done { replica: *replica, time: *time, call }
        };
        stamps.iter().map(done).collect()
    }

    /// The number of the first history on which a design differs from the type.
    pub fn first_difference(&self, ty: &Type, design: &Design) -> Option<usize> {
        (0..self.len()).find(|number| self.differs(ty, design, &self.get(*number)))
    }

    /// Whether the design answers some ask otherwise than the type after some order that respects the ranks.
    fn differs(&self, ty: &Type, design: &Design, ops: &[Done]) -> bool {
        let state = design.state_after(ty, ops);
        let ends = ends(ty, ops);
        self.asks.iter().any(|ask| {
            let answer = design.answer(ty, &state, ask);
            ends.iter().any(|end| ty.answer(end, ask) != answer)
        })
    }

    /// The answers of the type to all asks after operations, unless two orders that respect the ranks give different ones.
    pub fn answers(&self, ty: &Type, ops: &[Done]) -> Option<Vec<Value>> {
        let ends = ends(ty, ops);
        let answer = |ask: &Call| {
            let first = ty.answer(&ends[0], ask);
            ends.iter().all(|end| ty.answer(end, ask) == first).then_some(first)
        };
        self.asks.iter().map(answer).collect()
    }
}

/// The states of the type after all orders of operations that respect the ranks.
fn ends(ty: &Type, ops: &[Done]) -> Vec<Vec<Slot>> {
    let ranks: Vec<Vec<Value>> = ops.iter().map(|done| ty.rank(done)).collect();
    let respects = |order: &&&[usize]| order.windows(2).all(|pair| ranks[pair[0]] <= ranks[pair[1]]);
    let end = |order: &&[usize]| {
        let mut state = ty.start();
        order.iter().for_each(|place| ty.step(&mut state, ops[*place].call));
        state
    };
    ORDERS[ops.len()].iter().filter(respects).map(end).collect()
}
