//! Ropes that take long to read: left parts one in another, and left parts of which only the first terms are used.
use crate::request::{Answer, Call, Case, E, Request, both_matches, variable};
use crate::store::{Field, Run, Store, char_words};

/// The name of the one variable of `e.1`.
const NAMES: &[u8] = b"1";

/// A rope's terms in one run: flatten, and `e.1` as a listing and as a first match, whose one candidate is the settled copy.
fn flat(store: Store, field: Field, terms: Vec<usize>) -> Case {
    let copy = Run { start: store.terms_used, len: terms.len() };
    let mut requests = Vec::from(both_matches(field, &[variable(E, 0)], &[copy], &terms));
    requests.insert(0, Request { call: Call::Flatten(field), answer: Answer::Copied(terms) });
    Case { store, requests }
}

/// Terms that a rope has in turn.
const LETTERS: usize = 8;

/// A left spine of so many nodes: below the n-th Concat are n - 1 others, each with its full reach as left length.
pub fn spine(nodes: usize) -> Case {
    let mut store = Store::new(NAMES);
    store.run(('a'..).take(LETTERS).map(char_words));
    let leaves: Vec<usize> = (0..LETTERS).map(|term| store.cons(term)).collect();
    let mut terms = vec![0];
    let mut top = leaves[0];
    while store.nodes_used < nodes {
        terms.push(terms.len() % LETTERS);
        top = store.concat(top, store.reach(top), leaves[terms[terms.len() - 1]]);
    }
    let field = Field { node: top, len: terms.len() };
    flat(store, field, terms)
}

/// Nodes of the store of `clamped` that are not left parts one in another: Nil, two Cons and the doublings.
const OTHERS: usize = 36;

/// One term below so many left parts, of each of which only that term is used; the second term of each is another.
fn chain(store: &mut Store, first: usize, second: usize, parts: usize) -> usize {
    (0..parts).fold(first, |below, _| store.concat(below, 1, second))
}

/// The first term of a node again and again: doubled until there are `len` of it, for a power of two.
fn doubled(store: &mut Store, node: usize, len: usize) -> usize {
    let mut made = (node, 1);
    while made.1 < len {
        made = (store.concat(made.0, made.1, made.0), 2 * made.1);
    }
    made.0
}

fn clamped_store() -> (Store, usize, usize) {
    let mut store = Store::new(NAMES);
    store.run(['a', 'b'].map(char_words));
    let leaves = (store.cons(0), store.cons(1));
    (store, leaves.0, leaves.1)
}

/// One term below nearly as many clamped left parts as there are nodes, read as many times; the size is a power of two.
pub fn clamped(size: usize) -> Case {
    let (mut store, first, second) = clamped_store();
    let below = chain(&mut store, first, second, size - OTHERS);
    let node = doubled(&mut store, below, size);
    // The settled copy has to fit beside the two terms.
    let len = size - store.terms_used;
    flat(store, Field { node, len }, vec![0; len])
}

/// Two fields with the same terms: equal, and whether one starts with all but one of the other's.
fn same(store: Store, left: Field, right: Field) -> Case {
    let front = right.take(right.len - 1);
    let requests = vec![Request::compared(Call::Equal(left, right), true), Request::compared(Call::StartsWith(left, front), true)];
    Case { store, requests }
}

/// The rope of `clamped` under two top nodes.
pub fn clamped_twice(size: usize) -> Case {
    let (mut store, first, second) = clamped_store();
    let below = chain(&mut store, first, second, size - OTHERS);
    let half = doubled(&mut store, below, size / 2);
    let [left, right] = [(); 2].map(|()| Field { node: store.concat(half, size / 2, half), len: size });
    same(store, left, right)
}

/// Two ropes as in `clamped` that have only their leaves in common, each of half the left parts.
pub fn clamped_apart(size: usize) -> Case {
    let (mut store, first, second) = clamped_store();
    let [left, right] = [(); 2].map(|()| {
        let below = chain(&mut store, first, second, size / 2 - OTHERS);
        Field { node: doubled(&mut store, below, size), len: size }
    });
    same(store, left, right)
}

// ---- by calls alone ----

/// A right spine that grows by joins, a term before those there: the place i has height i + 1 and as many terms.
struct RightSpine(Vec<Field>);

impl RightSpine {
    /// The first terms, two at most, of the spine of this height.
    fn front(&mut self, store: &mut Store, height: usize) -> Field {
        while self.0.len() < height {
            let longer = store.join(self.0[0], self.0[self.0.len() - 1]);
            self.0.push(longer);
        }
        let spine = self.0[height - 1];
        spine.take(spine.len.min(2))
    }
}

/// A field of `a`, and the right spine of `b`.
fn by_calls() -> (Store, Field, RightSpine) {
    let mut store = Store::new(NAMES);
    store.run(['a', 'b'].map(char_words));
    let [first, second] = [0, 1].map(|start| store.field_of(&[Run { start, len: 1 }]));
    (store, first, RightSpine(vec![second]))
}

/// The next of the clamped left parts that calls make: a field whose first term is that of `below`, and of `below` no other is used.
///
/// A join goes below a clamped left part by itself. So a term is joined before `below`, both are joined with a spine that is high enough for
/// the join to take them as they are, and a rest takes the term away again.
fn clamp_by_calls(store: &mut Store, before: Field, below: Field, spine: &mut RightSpine) -> Field {
    let height = store.height(below.node);
    let front = spine.front(store, height);
    let longer = store.join(before, below);
    let joined = store.join(longer.take(2), front);
    store.rest(joined, 1).take(2)
}

/// A quarter of the nodes are clamped left parts one in another, made by `from_runs`, `join`, `take` and `rest`; their first term is read
/// half as many times as the size, a power of two, says.
pub fn clamped_by_calls(size: usize) -> Case {
    let (mut store, first, mut spine) = by_calls();
    let mut part = store.join(first, spine.0[0]);
    while store.nodes_used + OTHERS < size {
        part = clamp_by_calls(&mut store, spine.0[0], part, &mut spine);
    }
    let mut half = part;
    while 2 * half.len < size {
        half = store.join(half, half);
    }
    let [left, right] = [(); 2].map(|()| store.join(half, half));
    let terms = (0..size).map(|i| i % 2).collect();
    let mut requests = vec![Request { call: Call::Flatten(left), answer: Answer::Copied(terms) }];
    requests.push(Request::compared(Call::Equal(left, right), true));
    Case { store, requests }
}

/// A field joined again and again with the first two terms of a right spine that is as high.
pub fn joined(size: usize) -> Case {
    let (mut store, mut field, mut spine) = by_calls();
    loop {
        let height = store.height(field.node).max(3) - 1;
        let front = spine.front(&mut store, height);
        let longer = store.join(field, front);
        if store.nodes_used + 3 > size {
            let again = store.join(field, front);
            return Case { store, requests: vec![Request::compared(Call::Equal(longer, again), true)] };
        }
        field = longer;
    }
}
