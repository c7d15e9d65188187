//! A child module of value.rs's text: makes nodes from records, and reads those that a call made. It changes nothing there.
use super::{Node, Slice, Value, ViewField};
use std::collections::HashSet;
use std::rc::Rc;

/// What an `Rc` has before its value: two counts.
const COUNTS: usize = 2 * size_of::<usize>();

/// The size of a node's allocation.
pub const ALLOCATED: usize = COUNTS + size_of::<Node>();

/// Where the allocation of the node at an address starts.
pub fn allocation(address: usize) -> usize {
    address - COUNTS
}

/// The nodes of a store, each from its record, over one arena.
pub struct Nodes {
    arena: Slice,
    made: Vec<Rc<Node>>,
}

/// A node as it stands: its address, and those of its children.
pub enum Seen {
    Nil,
    Cons { start: usize, len: usize, tail: usize },
    Concat { left: usize, left_len: usize, right: usize, height: u32 },
}

impl Nodes {
    /// Records of a valid store, six words each.
    pub fn new(records: &[u32], arena: Vec<Value>) -> Self {
        let arena = Slice::owned(arena);
        let mut made: Vec<Rc<Node>> = Vec::new();
        for record in records.chunks(6) {
            let [kind, a, b, c, height] = [record[0], record[1], record[2], record[3], record[4]];
            let child = |i: u32| Rc::clone(&made[i as usize]);
            let node = match kind {
                0 => Node::Nil,
                1 => Node::Cons(arena.sub(a as usize, b as usize), child(c)),
                _ => Node::Concat(child(a), b as usize, child(c), height),
            };
            made.push(Rc::new(node));
        }
        Self { arena, made }
    }

    pub fn run(&self, start: usize, len: usize) -> Slice {
        self.arena.sub(start, len)
    }

    pub fn field(&self, node: usize, len: usize) -> ViewField {
        ViewField { node: Rc::clone(&self.made[node]), len }
    }

    /// The addresses, by number.
    pub fn addresses(&self) -> impl Iterator<Item = usize> {
        self.made.iter().map(address)
    }

    /// Where terms that were borrowed from the arena start in it.
    pub fn start_of(&self, terms: &[Value]) -> usize {
        (terms.as_ptr() as usize - self.arena.terms().as_ptr() as usize) / size_of::<Value>()
    }
}

fn address(node: &Rc<Node>) -> usize {
    Rc::as_ptr(node) as usize
}

fn seen(node: &Rc<Node>) -> Seen {
    match &**node {
        Node::Nil => Seen::Nil,
        Node::Cons(run, tail) => Seen::Cons { start: run.start, len: run.len, tail: address(tail) },
        Node::Concat(left, left_len, right, height) => {
            Seen::Concat { left: address(left), left_len: *left_len, right: address(right), height: *height }
        }
    }
}

/// The address of a field's node.
pub fn root(field: &ViewField) -> usize {
    address(&field.node)
}

/// The nodes of a field that are not known yet, each once.
pub fn unknown(field: &ViewField, known: impl Fn(usize) -> bool) -> Vec<(usize, Seen)> {
    let (mut found, mut met) = (Vec::new(), HashSet::new());
    let mut open = vec![&field.node];
    while let Some(node) = open.pop() {
        let at = address(node);
        if known(at) || !met.insert(at) {
            continue;
        }
        found.push((at, seen(node)));
        match &**node {
            Node::Nil => {}
            Node::Cons(_, tail) => open.push(tail),
            Node::Concat(left, _, right, _) => open.extend([left, right]),
        }
    }
    found
}

/// The term numbers that a field shows, in order.
pub fn numbers(field: &ViewField) -> Vec<usize> {
    field.into_runs().iter().flat_map(|run| run.start..run.start + run.len).collect()
}
