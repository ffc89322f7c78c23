#!/usr/bin/env python3
"""check.py TYPE DESIGN: `accepted` where the proof in a design file is accepted for a type, else `condition C line L` on standard
error, status 1. It is written from docs/reference/proofs.md alone, and searches for nothing.
A formula is ("var", name), ("atom", form), ("not", one of these two), ("and", parts) or ("or", parts). Numbers and names are forms:
({number variable: multiple}, constant). A place is (a field's name, 0), or the numbers of a component and of a leaf."""
import functools, itertools, json, re, sys
SORTS, WORDS, KEY, BEGUN = ("int", "nat", "name"), ("time", "replica"), "the key", ("var", "begun")
TRUE, FALSE, OPPOSITE = ("and", []), ("or", []), {"and": "or", "or": "and"}
TOKEN = r'"[^"]*"|->|:=|<=|[0-9]+|[A-Za-z_]\w*|[^ \t\r]'
LEAVES = {word: [word] for word in WORDS}  # the leaves of an effect as expressions
for n in range(4): LEAVES |= {f"p{n}": ["p", n], f"pos{n}": ["max", ["p", n], 0], f"neg{n}": ["max", ["-", 0, ["p", n]], 0]}
def form(constant, terms=()): return {v: c for v, c in sorted(dict(terms).items()) if c}, constant
def plus(a, b, times=1): return form(a[1] + times * b[1], {v: a[0].get(v, 0) + times * b[0].get(v, 0) for v in {**a[0], **b[0]}})
def minus(a, b): return plus(a, b, -1)
def code(name): return int.from_bytes(name.encode().ljust(15, b"\0"), "big")
def constant(c): return (TRUE if c else FALSE) if isinstance(c, bool) else form(code(c) if isinstance(c, str) else c)
def is_truth(value): return isinstance(value[0], str)
def neg(f): return (OPPOSITE[f[0]], [neg(part) for part in f[1]]) if f[0] in OPPOSITE else f[1] if f[0] == "not" else ("not", f)
def disj(*parts):
    parts = [part for part in parts if part != FALSE]
    return TRUE if TRUE in parts else parts[0] if len(parts) == 1 else ("or", parts)
def conj(*parts): return neg(disj(*map(neg, parts)))
def at_most(a, b):
    terms, rest = f = minus(a, b)
    return constant(rest <= 0) if not terms else ("atom", f) if terms[min(terms)] > 0 else ("not", ("atom", minus(form(1), f)))
def below(a, b): return conj(neg(a), b) if is_truth(a) else at_most(plus(a, form(1)), b)
def equal(a, b): return conj(disj(neg(a), b), disj(a, neg(b))) if is_truth(a) else conj(at_most(a, b), at_most(b, a))
def less(pairs): return disj(below(*pairs[0]), conj(equal(*pairs[0]), less(pairs[1:]))) if pairs else FALSE
OPERATORS = {"or": disj, "and": conj, "not": neg, "<": below, "<=": at_most, "=": equal, "+": plus, "-": minus}
POWERS = dict(zip(OPERATORS, (1, 2, 3, 4, 4, 4, 5, 5)))
def parse(tokens, params, least=0):  # an expression in the form of a design's ask, from the end of the reversed tokens
    def parts(n): return [(parse(tokens, params), tokens.pop())[0] for _ in range(n)]  # with the token after each
    token = tokens.pop()
    if token == "if": e = ["if", *parts(2), parse(tokens, params)]
    elif token == "not": e = ["not", parse(tokens, params, POWERS["not"])]
    elif token == "(": e, = parts(1)
    elif token in ("max", "min"): e = [token, *parts(2 if tokens.pop() == "(" else 0)]
    elif token in params: e = ["p", params.index(token)]
    elif token in ("true", "false"): e = token == "true"
    elif token == "-" or token[0] in '"0123456789': e = token[1:-1] if token[0] == '"' else -int(tokens.pop()) if token == "-" else int(token)
    else: e = ["leaf", token.split("[")[0], 0, *[params.index(key[:-1]) for key in token.split("[")[1:]]]
    while tokens and POWERS.get(tokens[-1], -1) >= least:
        e = [operator := tokens.pop(), e, parse(tokens, params, POWERS[operator] + 1)]
    return e
def leaves(shape): return [leaf for part in shape[1:] for leaf in leaves(part)] if isinstance(shape, list) else [shape]

class Places:  # those of a type and a design: the sorts of keys and of themselves (or leaves' shapes), their starts, and how operations change them
    def __init__(self, text, design):
        (components, self.asks), places, self.shapes, self.ops, self.changes, self.queries, self.signature = design, {}, [], [], [], [], [[], []]
        for line in text.split("\n"):
            line = re.sub(r"(\w+) \[ (\w+) \]", r"\1[\2]", " ".join(re.findall(TOKEN, line.split("#")[0])))
            params = dict(re.findall(r"(\w+) : (\w+)", line.partition(" )")[0]))
            expression = lambda said: said and parse(said.split()[::-1], [*params])
            if said := re.fullmatch(r"state (\w+) : (?:table (\w+) -> )?(\w+) = (.*)", line):
                places[said[1], 0] = said[2], said[3], constant(expression(said[4]))
            elif said := re.fullmatch(r"op (\w+) .*?\) rank (.*?) : (.*)", line):
                changes = [re.fullmatch(r"(?:clear )?(\w+)(?:\[(\w+)\])?(?: := (.*))?", change).groups() for change in said[3].split(" ; ")]
                self.ops.append((params, said[2].split(" , ")))
                self.signature[0].append([said[1], [*params.values()]])
                self.changes.append({(name, 0): (key, expression(right)) for name, key, right in changes})
            elif said := re.fullmatch(r"query (\w+) .*?\) : (\w+) = (.*)", line):
                self.queries.append((params, expression(said[3])))
                self.signature[1].append([said[1], [*params.values()], said[2]])
            elif line and not re.fullmatch(r"type \w+( 2)?", line): sys.exit(f"no line of a type file: {line}")
        self.fields = list(places)
        for c, (word, *parts, effects) in enumerate(components):
            key = parts.pop(0) if word in ("table", "set", "tallies") else None
            shape, starts = parts or (("or", [False]) if word == "set" else ("sum", [0]))
            self.shapes.append(shape)
            places |= {(c, l): (key, leaf, constant(starts[l])) for l, leaf in enumerate(leaves(shape))}
            for op, effect in [(op, effect) for op, effect in enumerate(effects) if effect is not None]:
                p, joined = (effect, [True]) if word == "set" else effect if key else (None, effect)
                param = p and [*self.ops[op][0]][int(p[1])]
                if shape == "sum" and re.fullmatch(r"p\d", str(joined)) and [*self.ops[op][0].values()][int(joined[1])] != "nat": sys.exit("a weight that may be below 0")
                self.changes[op] |= {(c, l): (param, LEAVES.get(e, e)) for l, e in enumerate(joined if isinstance(joined, list) else [joined])}
        self.key, self.sort, self.start = [{place: said[n] for place, said in places.items()} for n in range(3)]
    def key_of(self, word, place, *_):  # the sort of a conjunct's key, or None
        if word == "q": return next(iter(self.queries[place][0].values()), None)
        return self.key[tuple(self.fields[place] if word == "e" else (place, 0) if word == "t" else place[0] if word == "k" else place)]

class Condition:  # the facts of a condition: of a claim at the start or after the operation of a number, or of the query of a number
    def __init__(self, at, relation, claim, op, query):
        self.at, self.op, self.facts, self.numbers = at, op, [], {}
        params = at.ops[op][0] if op is not None else at.queries[query][0] if query is not None else {}
        self.params, self.keys = [*params], {KEY: claim and at.key_of(*claim), **params}
        self.sort = {**at.sort, **self.keys}
        if claim and op is None: self.natural([KEY])
        else: self.take_before(relation)
        if op is None: state, begun, rank = lambda place, _: at.start[place], FALSE, self.last
        else: state, begun, rank = self.after, TRUE, lambda n: self.element(at.ops[op][1][n])
        self.fact(neg(self.says(claim, KEY, state, begun, rank) if claim else self.answers_alike(query, self.params, self.before)))
    def take_before(self, relation):  # what is taken of the state before: it is the start or an operation led to it, and the relation holds of it
        kept = {sort: [place for place in self.at.key if self.at.key[place] == sort] for sort in (None, *SORTS)}
        self.fact(BEGUN, conj(*[equal(self.before(at, key), self.at.start[at]) for sort in kept for key in self.of_sort(sort) for at in kept[sort]]))
        self.natural([*self.at.fields, *self.params, KEY, *[at for at in self.at.sort if at not in self.at.fields]])
        lasts = [self.number("last " + word) for word in WORDS]
        ranks = [[equal(self.last(n), self.element(e, "last ")) for n, e in enumerate(rank) if e.isdigit() or e in WORDS] for _, rank in self.at.ops]
        self.fact(neg(BEGUN), conj(*[at_most(form(1), last) for last in lasts], disj(*[conj(*rank) for rank in ranks])))
        if self.op is not None:
            own = [self.number(word) for word in WORDS]
            for x in own: self.fact(at_most(form(1), x))
            self.fact(neg(BEGUN), neg(less([(self.element(e), self.last(n)) for n, e in enumerate(self.at.ops[self.op][1])])))
            self.fact(neg(BEGUN), neg(conj(*map(equal, own, lasts))))
        for a, b in [pair for sort in SORTS for pair in itertools.combinations(self.of_sort(sort), 2)]:
            self.fact(neg(equal(self.before(a), self.before(b))), conj(*[equal(self.before(at, a), self.before(at, b)) for at in kept[self.keys[a]]]))
        for conjunct in relation:
            for key in self.of_sort(self.at.key_of(*conjunct)): self.fact(self.says(conjunct, key, self.before, BEGUN, self.last))
    def natural(self, names):  # naturals and names are at least 0: of these places and keys
        for name in [name for name in names if self.sort[name] in ("nat", "name")]:
            for key in self.of_sort(self.at.key.get(name)): self.fact(at_most(form(0), self.before(name, key)))
    def fact(self, *parts): self.facts.append(disj(*parts))
    def number(self, name): return form(0, {self.numbers.setdefault(name, len(self.numbers)): 1})
    def last(self, n): return self.number(("last", n))
    def element(self, e, whose=""): return constant(int(e)) if e.isdigit() else self.number(whose + e) if e in WORDS else self.before(e)
    def before(self, name, key=None): return ("var", (name, key)) if self.sort[name] in ("bool", "or") else self.number((name, key))
    def of_sort(self, sort): return [name for name, s in self.keys.items() if s == sort] if sort else [None]
    def if_else(self, c, a, b):
        if is_truth(a): return conj(disj(neg(c), a), disj(c, b))
        if c in (TRUE, FALSE): return a if c == TRUE else b
        v = self.number(("if", len(self.numbers)))
        self.facts += [disj(neg(c), equal(v, a)), disj(c, equal(v, b))]
        return v
    def greater(self, a, b): return self.if_else(below(a, b), b, a)
    def value(self, e, state, keys):  # what an expression says in a state, where its parameters are these keys
        word, *parts = e if isinstance(e, list) else [None]
        if word is None: return constant(e)
        if word in WORDS: return self.number(word)
        if word == "p": return self.before(keys[parts[0]])
        if word == "leaf": return state(tuple(parts[:2]), keys[parts[2]] if parts[2:] else None)
        values = [self.value(part, state, keys) for part in parts]
        own = {"if": self.if_else, "max": self.greater, "min": lambda a, b: self.if_else(below(a, b), a, b)}
        return {**OPERATORS, **own}[word](*values)
    def answers_alike(self, q, keys, state): return equal(*[self.value(e, state, keys) for e in (self.at.queries[q][1], self.at.asks[q])])
    def says(self, conjunct, key, state, begun, rank):  # of a state, whether there was an operation, and the elements of the last one's rank
        word, place, *more = conjunct
        leaf = lambda place: state(tuple(place), key if self.at.key_of(*conjunct) else None)
        if word == "q": return self.answers_alike(place, [key], state)
        if word == "e": return equal(leaf(self.at.fields[place]), leaf(more[0]))
        if word == "t": return at_most(form(0), leaf((place, 0)))
        if word == "b": return disj(neg(leaf(place)), conj(begun, at_most(constant(more[1]), rank(more[0]))))
        if word == "c": return disj(neg(begun), neg(equal(leaf(place), rank(more[0]))), neg(leaf(more[1])), at_most(constant(more[3]), rank(more[2])))
        number = lambda x: self.if_else(x, form(1), form(0)) if is_truth(x) else x
        return disj(neg(begun), neg(less([(rank(more[0] + n), number(leaf(of))) for n, of in enumerate(place)])))
    @functools.cache
    def after(self, place, key):  # the value at a place after the operation, which is read once
        if place not in self.at.changes[self.op]: return self.before(place, key)
        param, new = self.at.changes[self.op][place]
        here = param and equal(self.before(key), self.before(param))
        if place not in self.at.fields: new = self.joined(self.at.shapes[place[0]], 0, place, key)
        else: new = self.at.start[place] if new is None else self.value(new, self.before, self.params)
        return self.if_else(here, new, self.before(place, key)) if param else new
    @functools.cache
    def weight(self, place): return self.value(self.at.changes[self.op][place][1], None, self.params)  # which is read once
    def joined(self, shape, first, place, key):  # a leaf with its effect, in a part of the component's shape whose first leaf has this number
        read = lambda leaf: (self.before((place[0], leaf), key), self.weight((place[0], leaf)))
        if isinstance(shape, str): return {"or": disj, "sum": plus}.get(shape, self.greater)(*read(place[1]))
        word, front, rest = shape
        second = first + len(leaves(front))
        if place[1] < second: return self.joined(front, first, place, key)
        if word == "pair": return self.joined(rest, second, place, key)
        pairs, (old, new) = [read(n) for n in range(first, second)], read(place[1])
        return self.if_else(less(pairs), new, self.if_else(less([(b, a) for a, b in pairs]), old, self.joined(rest, second, place, key)))

def clauses_of(facts):  # their clauses, the forms of the variables that are atoms, and how many variables there are
    variables, atoms, clauses = {}, {}, []
    def literal(f):
        if f[0] == "not": return -literal(f[1])
        parts = [literal(part) for part in f[1]] if f[0] in OPPOSITE else []
        v = variables.setdefault(len(variables) if parts else str(f), len(variables) + 1)  # no two gates are the same
        if f[0] == "atom": atoms[v] = f[1]
        clauses.extend([[-v, part] for part in parts] if f[0] == "and" else [[-v, *parts]] if parts else [])
        return v
    def state(f):
        for part in f[1] if f[0] == "and" else []: state(part)
        if f[0] != "and": clauses.append([literal(part) for part in (f[1] if f[0] == "or" else [f])])
    state(("and", facts))
    return clauses, atoms, len(variables)
def is_linear(literals, multipliers, atoms):  # whether the multiples of the literals' forms come to a constant above 0
    if len(literals) != len(multipliers) or any(abs(k) not in atoms for k in literals) or not all(0 <= m <= 2**62 for m in multipliers): return False
    total = form(0)
    for k, m in zip(literals, multipliers): total = plus(total, minus(form(1), atoms[k]) if k > 0 else atoms[-k], m)
    return not total[0] and total[1] > 0
def is_hinted(literals, hints, clauses):  # whether the clause of each hint has one open literal, known from then on, and that of the last has none
    known = {-k for k in literals}
    for n, hint in enumerate(hints, 1):
        if not 1 <= hint <= len(clauses): return False
        open_ones = {k for k in clauses[hint - 1] if -k not in known}
        if len(open_ones) != (1 if n < len(hints) else 0): return False
        known |= open_ones
    return bool(hints)

def follows(literals, clauses):  # whether clauses with one open literal each, which is known from then on, lead to one that has none
    known = {-k for k in literals}
    while True:
        open_ones = [{k for k in clause if -k not in known} for clause in clauses]
        if set() in open_ones: return True
        if known.issuperset(new := [k for ones in open_ones if len(ones) == 1 for k in ones]): return False
        known.update(new)

def wanted(places, relation):  # the conditions, in their order: the claim, the operation and the query of each
    return [(claim, op, None) for op in (None, *range(len(places.ops))) for claim in relation] + [(None, None, q) for q, _ in enumerate(places.queries)]
def no_whole(number): sys.exit(f"no whole number: {number}")
def told(text, file):  # what is said of the bytes of a type and a design file
    _, version, signature, design, relation, proof, _ = json.loads(file.decode(), parse_float=no_whole, parse_constant=no_whole)
    places = Places(text.decode("latin-1"), design)
    if places.signature != signature: return "another signature"
    conditions = wanted(places, relation)
    for n, (what, lines) in enumerate(zip(conditions, proof + [[]] * len(conditions)), 1):
        clauses, atoms, count = clauses_of(Condition(places, relation, *what).facts)
        for line, (word, literals, *reason) in enumerate(lines, 1):
            good = is_linear(literals, *reason, atoms) if word == "l" else is_hinted(literals, *reason, clauses) if version == 2 else follows(literals, clauses)
            if not good or any(not 1 <= abs(k) <= count for k in literals): return f"condition {n} line {line}"
            clauses.append(literals)
        if not lines or lines[-1][1]: return f"condition {n} line {len(lines) + 1}"
    return "accepted" if len(proof) <= len(conditions) else f"condition {len(conditions) + 1} line 1"

if __name__ == "__main__":
    answer = told(*[open(path, "rb").read() for path in sys.argv[1:]])
    if answer != "accepted": sys.exit(answer)
    print(answer)
