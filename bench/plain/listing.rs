//! The listing of a type's designs: all designs of a size, by recursion, sorted by their token lists.
use super::designs::{Ask, Component, Design, Effect, Leaf, Shape, Tag, Token};
use super::types::{kind, Kind, Operator, Sort, Type};

/// All shapes of so many leaves.
fn shapes(count: usize, chain: bool) -> Vec<Shape> {
    if count == 1 {
        return vec![Shape::Max, Shape::Name, Shape::Or];
    }
    let mut found = Vec::new();
    for first in 1..count {
        for a in shapes(first, true) {
            for b in shapes(count - first, chain) {
                found.push(Shape::Lex(Box::new(a.clone()), Box::new(b)));
            }
        }
        if !chain {
            for a in shapes(first, false) {
                for b in shapes(count - first, false) {
                    found.push(Shape::Pair(Box::new(a.clone()), Box::new(b)));
                }
            }
        }
    }
    found
}

/// All ways to take one of each list.
fn products<T: Clone>(lists: &[Vec<T>]) -> Vec<Vec<T>> {
    let mut found = vec![Vec::new()];
    for list in lists {
        found = found
            .iter()
            .flat_map(|front: &Vec<T>| {
                list.iter().map(move |x| {
                    let mut all = front.clone();
                    all.push(x.clone());
                    all
                })
            })
            .collect();
    }
    found
}

impl Type {
    fn gives(&self, op: usize, leaf: Leaf, kind_wanted: Kind) -> bool {
        let sort = |p: usize| self.ops[op].sorts.get(p).copied();
        match leaf {
            Leaf::Arg(p) => sort(p).is_some_and(|s| kind(s) == kind_wanted),
            Leaf::Pos(p) | Leaf::Neg(p) => kind_wanted == Kind::Number && sort(p) == Some(Sort::Int),
            Leaf::False | Leaf::True => kind_wanted == Kind::Truth,
            _ => kind_wanted == Kind::Number,
        }
    }

    fn all_leaves() -> Vec<Leaf> {
        let mut all: Vec<Leaf> = (0..4).map(Leaf::Arg).collect();
        all.extend([Leaf::Time, Leaf::Replica, Leaf::Zero, Leaf::One]);
        all.extend((0..4).map(Leaf::Pos));
        all.extend((0..4).map(Leaf::Neg));
        all.extend([Leaf::False, Leaf::True]);
        all
    }

    fn leaves_for(&self, op: usize, kind_wanted: Kind) -> Vec<Leaf> {
        Type::all_leaves().into_iter().filter(|l| self.gives(op, *l, kind_wanted)).collect()
    }

    fn weights(&self, op: usize) -> Vec<Leaf> {
        let is_weight = |l: &Leaf| match l {
            Leaf::Arg(p) => self.ops[op].sorts.get(*p) == Some(&Sort::Nat),
            l => self.gives(op, *l, Kind::Number),
        };
        Type::all_leaves().into_iter().filter(is_weight).collect()
    }

    /// All effects of an operation.
    fn effects(&self, op: usize, tag: Tag, key: Option<Sort>, kinds: &[Kind]) -> Vec<Effect> {
        let rows = match tag {
            Tag::Cell | Tag::Table => products(&kinds.iter().map(|k| self.leaves_for(op, *k)).collect::<Vec<_>>()),
            Tag::Set => vec![Vec::new()],
            Tag::Tally | Tag::Tallies => self.weights(op).into_iter().map(|w| vec![w]).collect(),
        };
        let keys: Vec<Option<usize>> = match key {
            None => vec![None],
            Some(sort) => (0..self.ops[op].sorts.len()).filter(|p| self.ops[op].sorts[*p] == sort).map(Some).collect(),
        };
        let with = |key: Option<usize>| rows.iter().map(move |leaves| Effect { key, leaves: leaves.clone() });
        keys.into_iter().flat_map(with).collect()
    }

    /// All components of a size whose effects cost so much, of a kind.
    fn with_effects(&self, tag: Tag, key: Option<Sort>, shape: Option<Shape>, rest: usize, found: &mut Vec<Component>) {
        let mut kinds = Vec::new();
        if let Some(shape) = &shape {
            shape.leaves(&mut kinds);
        }
        let cost = kinds.len().max(1);
        if rest == 0 || rest % cost != 0 || rest / cost > self.ops.len() {
            return;
        }
        let pools: Vec<Vec<usize>> = kinds
            .iter()
            .map(|k| match k {
                Kind::Number => (0..self.numbers.len()).collect(),
                Kind::Name => (0..self.names.len()).collect(),
                Kind::Truth => (0..self.truths.len()).collect(),
            })
            .collect();
        let mut rows = Vec::new();
        self.rows(0, rest / cost, tag, key, &kinds, &mut Vec::new(), &mut rows);
        for starts in products(&pools) {
            for effects in &rows {
                found.push(Component { tag, key, shape: shape.clone(), starts: starts.clone(), effects: effects.clone() });
            }
        }
    }

    /// All lists of effects of the operations from one on, of which so many aren't none.
    #[allow(clippy::too_many_arguments)]
    fn rows(
        &self,
        op: usize,
        some: usize,
        tag: Tag,
        key: Option<Sort>,
        kinds: &[Kind],
        front: &mut Vec<Option<Effect>>,
        found: &mut Vec<Vec<Option<Effect>>>,
    ) {
        if op == self.ops.len() {
            if some == 0 {
                found.push(front.clone());
            }
            return;
        }
        front.push(None);
        self.rows(op + 1, some, tag, key, kinds, front, found);
        front.pop();
        if some > 0 {
            for effect in self.effects(op, tag, key, kinds) {
                front.push(Some(effect));
                self.rows(op + 1, some - 1, tag, key, kinds, front, found);
                front.pop();
            }
        }
    }

    /// All components of a size that are of these kinds.
    fn components(&self, size: usize, tags: &[Tag]) -> Vec<Component> {
        const KEYS: [Sort; 3] = [Sort::Int, Sort::Nat, Sort::Name];
        let mut found = Vec::new();
        for count in 1..=size {
            let nodes = 2 * count - 1;
            if nodes >= size {
                break;
            }
            for shape in shapes(count, false) {
                if tags.contains(&Tag::Cell) {
                    self.with_effects(Tag::Cell, None, Some(shape.clone()), size - nodes, &mut found);
                }
                if tags.contains(&Tag::Table) && nodes + 1 < size {
                    for key in KEYS {
                        self.with_effects(Tag::Table, Some(key), Some(shape.clone()), size - nodes - 1, &mut found);
                    }
                }
            }
        }
        if tags.contains(&Tag::Tally) {
            self.with_effects(Tag::Tally, None, None, size - 1, &mut found);
        }
        for key in KEYS {
            if tags.contains(&Tag::Set) {
                self.with_effects(Tag::Set, Some(key), None, size - 1, &mut found);
            }
            if tags.contains(&Tag::Tallies) && size > 2 {
                self.with_effects(Tag::Tallies, Some(key), None, size - 2, &mut found);
            }
        }
        found
    }

    /// The atoms of a query over components: each with its kind and the components that it reads.
    fn atoms(&self, query: usize, components: &[Component]) -> Vec<(Ask, Kind, u32)> {
        let sorts = &self.queries[query].sorts;
        let mut found = Vec::new();
        for (c, component) in components.iter().enumerate() {
            let keys: Vec<Option<usize>> = match component.key {
                None => vec![None],
                Some(sort) => (0..sorts.len()).filter(|p| sorts[*p] == sort).map(Some).collect(),
            };
            for (l, kind) in component.kinds().into_iter().enumerate() {
                found.extend(keys.iter().map(|key| (Ask::Leaf(c, l, *key), kind, 1 << c)));
            }
        }
        found.extend(sorts.iter().enumerate().map(|(p, s)| (Ask::Arg(p), kind(*s), 0)));
        found.extend((0..self.numbers.len()).map(|p| (Ask::Number(p), Kind::Number, 0)));
        found.extend((0..self.names.len()).map(|p| (Ask::Name(p), Kind::Name, 0)));
        found.extend([(Ask::Truth(false), Kind::Truth, 0), (Ask::Truth(true), Kind::Truth, 0)]);
        found
    }
}

/// An ask, its tokens, and the components that it reads.
#[derive(Clone)]
struct Known {
    ask: Ask,
    tokens: Vec<Token>,
    reads: u32,
}

/// All asks of one query by kind and size, from 1.
struct Asks {
    atoms: Vec<(Ask, Kind, u32)>,
    by_kind: [Vec<Vec<Known>>; 3],
}

fn known(ask: Ask, reads: u32) -> Known {
    let mut tokens = Vec::new();
    ask.tokens(&mut tokens);
    Known { ask, tokens, reads }
}

impl Asks {
    fn new(atoms: Vec<(Ask, Kind, u32)>) -> Asks {
        Asks { atoms, by_kind: [Vec::new(), Vec::new(), Vec::new()] }
    }

    /// Makes the asks up to a size.
    fn grow(&mut self, size: usize) {
        while self.by_kind[0].len() < size {
            let size = self.by_kind[0].len() + 1;
            let mut made = [Vec::new(), Vec::new(), Vec::new()];
            if size == 1 {
                for (ask, kind, reads) in &self.atoms {
                    made[*kind as usize].push(known(ask.clone(), *reads));
                }
            } else {
                for a in &self.by_kind[Kind::Truth as usize][size - 2] {
                    made[Kind::Truth as usize].push(known(Ask::Not(Box::new(a.ask.clone())), a.reads));
                }
                for first in 1..size - 1 {
                    let second = size - 1 - first;
                    for (op, of, gives) in [
                        (Operator::And, Kind::Truth, Kind::Truth),
                        (Operator::Or, Kind::Truth, Kind::Truth),
                        (Operator::Less, Kind::Number, Kind::Truth),
                        (Operator::Less, Kind::Name, Kind::Truth),
                        (Operator::Plus, Kind::Number, Kind::Number),
                        (Operator::Minus, Kind::Number, Kind::Number),
                    ] {
                        for a in &self.by_kind[of as usize][first - 1] {
                            for b in &self.by_kind[of as usize][second - 1] {
                                if matches!(op, Operator::Less | Operator::Minus) || a.tokens <= b.tokens {
                                    let both = Ask::Two(op, Box::new(a.ask.clone()), Box::new(b.ask.clone()));
                                    made[gives as usize].push(known(both, a.reads | b.reads));
                                }
                            }
                        }
                    }
                }
            }
            for (all, new) in self.by_kind.iter_mut().zip(made) {
                all.push(new);
            }
        }
    }
}

struct Maker<'a> {
    ty: &'a Type,
    components: Vec<(Component, usize, Vec<Token>)>,
    designs: Vec<Design>,
}

impl Maker<'_> {
    /// Adds the designs with these components and all longer lists of components.
    fn extend(&mut self, from: usize, chosen: &mut Vec<Component>, left: usize) {
        self.ask_all(chosen, left);
        for next in from..self.components.len() {
            let size = self.components[next].1;
            // so many components are read by no fewer nodes of asks
            let least = (2 * (chosen.len() + 1)).saturating_sub(self.ty.queries.len()).max(self.ty.queries.len());
            if size + least <= left {
                chosen.push(self.components[next].0.clone());
                self.extend(next + 1, chosen, left - size);
                chosen.pop();
            }
        }
    }

    /// Adds the designs with exactly these components.
    fn ask_all(&mut self, chosen: &[Component], left: usize) {
        let queries = self.ty.queries.len();
        if left < queries {
            return;
        }
        let mut asks: Vec<Asks> = (0..queries).map(|q| Asks::new(self.ty.atoms(q, chosen))).collect();
        asks.iter_mut().for_each(|a| a.grow(left + 1 - queries));
        self.combine(&asks, chosen, left, 0, &mut Vec::new(), 0);
    }

    fn combine(&mut self, asks: &[Asks], chosen: &[Component], left: usize, query: usize, front: &mut Vec<Ask>, reads: u32) {
        if query == asks.len() {
            if reads == (1 << chosen.len()) - 1 {
                self.designs.push(Design { components: chosen.to_vec(), asks: front.clone() });
            }
            return;
        }
        let behind = asks.len() - query - 1;
        let sizes = if behind == 0 { left..left + 1 } else { 1..left + 1 - behind };
        let wanted = kind(self.ty.queries[query].sort) as usize;
        for size in sizes {
            for ask in &asks[query].by_kind[wanted][size - 1] {
                front.push(ask.ask.clone());
                self.combine(asks, chosen, left - size, query + 1, front, reads | ask.reads);
                front.pop();
            }
        }
    }
}

/// The designs of a size whose components are of these kinds.
pub fn designs(ty: &Type, size: usize, tags: &[Tag]) -> Vec<Design> {
    let mut components: Vec<(Component, usize, Vec<Token>)> = Vec::new();
    for own in 1..size {
        for component in ty.components(own, tags) {
            let mut tokens = Vec::new();
            component.tokens(&mut tokens);
            components.push((component, own, tokens));
        }
    }
    components.sort_by(|a, b| a.2.cmp(&b.2));
    let mut maker = Maker { ty, components, designs: Vec::new() };
    maker.extend(0, &mut Vec::new(), size);
    let mut designs = maker.designs;
    designs.sort_by_cached_key(Design::tokens);
    designs
}
