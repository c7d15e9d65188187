//! What a call has to leave: the rules of document 01 for refusals, the Rust original for all else.
use crate::opened;
use crate::plain::values::{alike, stripped, values};
use crate::port::{Call, EMPTY, Field, LEFT_ALONE, Outcome, Request, Store, lent};
use crate::recorder::{self, Noted};
use crate::rules::{self, Name, capacity};
use naldrev::TERM_WIDTH;
use original::matcher::{self, Bindings, MatchError, VariableKey};
use original::opened::nodes::{ALLOCATED, Nodes, Seen, allocation, numbers, root, unknown};
use original::opened::{Flat, Value as OpenedValue, ViewField as OpenedField};
use original::value::{Slice, Value, ViewField};
use refal_ast::{Symbol, Term, TermKind, Variable, VariableKind};
use std::collections::HashMap;

const NODES_FULL: usize = 12;
const TERMS_FULL: usize = 13;
const WORK_SHORT: usize = 14;
const MORE_THAN_FIT: usize = 15;

/// The outcome that a call has to have. `field` is the request's field in the Rust, where the caller has it; else it is made from the
/// words. An error says that the original does not do what 01 says of it.
pub fn outcome(store: &Store, call: &Call, field: Option<&ViewField>) -> Result<Outcome, String> {
    let refusal = rules::refusal(store, call);
    if refusal != 0 {
        return Ok(Outcome::refused(refusal, store, call));
    }
    match call {
        Call::FromRuns(_) | Call::Join(..) | Call::Take(..) | Call::Rest(..) | Call::Range(..) => built(store, call),
        Call::StartsWith(f, g) => Ok(said(store, call, pair(store, *f, *g, |f, g| f.starts_with(g)))),
        Call::Equal(f, g) => Ok(said(store, call, pair(store, *f, *g, |f, g| f == g))),
        Call::Flatten(f, work) => flattened(store, call, *f, work),
        Call::CompareRuns(a, b, c, d) => {
            let all = values(&store.names, used_terms(store));
            Ok(said(store, call, all[*a..a + b] == all[*c..c + d]))
        }
        Call::Match(request) => listed(store, call, request, field),
    }
}

fn used_terms(store: &Store) -> &[u32] {
    &store.terms[..TERM_WIDTH * store.terms_used]
}

fn said(store: &Store, call: &Call, yes: bool) -> Outcome {
    Outcome { answer: 0, values: vec![yes.into()], store: store.clone(), lent: lent(call) }
}

// ---- calls on fields ----

/// The store's nodes in the Rust, over values or, where no value is read, over as many equal ones.
fn nodes_of(store: &Store, with_values: bool) -> Nodes {
    let arena =
        if with_values { opened::values::values(&store.names, used_terms(store)) } else { vec![OpenedValue::Char('a'); store.terms_used] };
    Nodes::new(&store.nodes[..6 * store.nodes_used], arena)
}

fn pair(store: &Store, f: Field, g: Field, ask: impl Fn(&OpenedField, &OpenedField) -> bool) -> bool {
    let nodes = nodes_of(store, true);
    ask(&nodes.field(f.node, f.len), &nodes.field(g.node, g.len))
}

/// The field that a building call makes in the Rust, with the nodes that it allocated.
fn in_the_rust(nodes: &Nodes, call: &Call) -> (OpenedField, Noted) {
    let field = |f: &Field| nodes.field(f.node, f.len);
    match call {
        Call::FromRuns(words) => {
            let runs: Vec<_> = words.chunks(2).map(|r| nodes.run(r[0] as usize, r[1] as usize)).collect();
            recorder::noting(ALLOCATED, || OpenedField::from_runs(runs))
        }
        Call::Join(f, g) => {
            let (f, g) = (field(f), field(g));
            recorder::noting(ALLOCATED, || f.concat(g))
        }
        Call::Take(f, n) => recorder::noting(ALLOCATED, || field(f).range(0, *n)),
        Call::Rest(f, n) => recorder::noting(ALLOCATED, || field(f).rest(*n)),
        Call::Range(f, start, n) => recorder::noting(ALLOCATED, || field(f).range(*start, *n)),
        _ => unreachable!("a call that builds no field"),
    }
}

/// What the Rust allocates beside the nodes that it keeps: from_runs makes a Nil, and for each run that it fuses a node which it drops, with
/// a Nil made in dropping; the other calls make nothing else.
fn beside(call: &Call) -> usize {
    let Call::FromRuns(words) = call else { return 0 };
    let left: Vec<&[u32]> = words.chunks(2).filter(|run| run[1] > 0).collect();
    1 + 2 * left.windows(2).filter(|two| two[0][0] + two[0][1] == two[1][0]).count()
}

/// The outcome of a building call: the new nodes that the Rust's field has, as records in the order in which the Rust made them. A node that
/// the Rust made and dropped again (where from_runs fuses) has no record.
fn built(store: &Store, call: &Call) -> Result<Outcome, String> {
    let nodes = nodes_of(store, false);
    let (made, noted) = in_the_rust(&nodes, call);
    let mut number: HashMap<usize, usize> = nodes.addresses().enumerate().map(|(i, at)| (at, i)).collect();
    let (nils, mut new): (Vec<_>, Vec<_>) =
        unknown(&made, |at| number.contains_key(&at)).into_iter().partition(|(_, node)| matches!(node, Seen::Nil));
    new.sort_by_key(|(at, _)| noted.turns[&allocation(*at)]);
    number.extend(nils.iter().map(|(at, _)| (*at, EMPTY.node)));
    number.extend(new.iter().enumerate().map(|(i, (at, _))| (*at, store.nodes_used + i)));
    if noted.count != new.len() + beside(call) {
        return Err(format!("the original allocated {} nodes and kept {}", noted.count, new.len()));
    }
    if new.len() > capacity(&store.nodes, 6) - store.nodes_used {
        return Ok(Outcome::refused(NODES_FULL, store, call));
    }
    let mut after = store.clone();
    for (_, node) in &new {
        append(&mut after, node, &number);
    }
    Ok(Outcome { answer: 0, values: vec![number[&root(&made)], made.len()], store: after, lent: vec![] })
}

fn append(store: &mut Store, node: &Seen, number: &HashMap<usize, usize>) {
    let reach = |child: usize| store.nodes[6 * child + 5] as usize;
    let record = match node {
        Seen::Nil => unreachable!(),
        Seen::Cons { start, len, tail } => {
            let tail = number[tail];
            [1, *start, *len, tail, 1, (len + reach(tail)).min(65536)]
        }
        Seen::Concat { left, left_len, right, height } => {
            let right = number[right];
            [2, number[left], *left_len, right, *height as usize, (left_len + reach(right)).min(65536)]
        }
    };
    let at = 6 * store.nodes_used;
    store.nodes[at..at + 6].copy_from_slice(&record.map(|w| w as u32));
    store.nodes_used += 1;
}

fn flattened(store: &Store, call: &Call, f: Field, work: &[u32]) -> Result<Outcome, String> {
    let nodes = nodes_of(store, true);
    let field = nodes.field(f.node, f.len);
    let mut lent = work.to_vec();
    let answered = match field.flatten() {
        Flat::Borrowed([]) => vec![0, 0, 0],
        Flat::Borrowed(terms) => vec![0, nodes.start_of(terms), terms.len()],
        Flat::Owned(copy) => {
            let shown = numbers(&field);
            let all = opened::values::values(&store.names, used_terms(store));
            let read: Vec<_> = shown.iter().map(|i| all[*i].clone()).collect();
            if !opened::values::alike(&copy, &read) {
                return Err("the original's flatten and its runs disagree".into());
            }
            if copy.len() > work.len() / TERM_WIDTH {
                return Ok(Outcome::refused(WORK_SHORT, store, call));
            }
            put_terms(&mut lent, 0, store, &shown);
            vec![1, 0, copy.len()]
        }
    };
    Ok(Outcome { answer: 0, values: answered, store: store.clone(), lent })
}

/// Copies terms, by number, to a place in other words.
fn put_terms(words: &mut [u32], place: usize, store: &Store, shown: &[usize]) {
    for (i, n) in shown.iter().enumerate() {
        let at = TERM_WIDTH * (place + i);
        words[at..at + TERM_WIDTH].copy_from_slice(&store.terms[TERM_WIDTH * n..TERM_WIDTH * (n + 1)]);
    }
}

// ---- listings ----

/// The store after settling and the start of the settled run, or 13.
fn settled(store: &Store, f: Field) -> Result<(Store, usize), usize> {
    let node = &store.nodes[6 * f.node..];
    if f.len == 0 {
        return Ok((store.clone(), 0));
    }
    if node[0] == 1 && node[3] == 0 {
        return Ok((store.clone(), node[1] as usize));
    }
    if f.len > capacity(&store.terms, TERM_WIDTH) - store.terms_used {
        return Err(TERMS_FULL);
    }
    let shown = numbers(&nodes_of(store, false).field(f.node, f.len));
    let mut after = store.clone();
    put_terms(&mut after.terms, store.terms_used, store, &shown);
    after.terms_used += f.len;
    Ok((after, store.terms_used))
}

const KINDS: [VariableKind; 3] = [VariableKind::Symbol, VariableKind::Term, VariableKind::Expression];

fn key(name: &Name) -> VariableKey {
    VariableKey { kind: KINDS[name.0 as usize - 5], name: name.1.clone() }
}

/// The records of a valid pattern from `at` to the end of its level, as terms of the Rust, numbers stripped; `at` ends after it.
pub fn pattern_terms(names: &[u8], words: &[u32], at: &mut usize) -> Vec<Term> {
    let mut made = Vec::new();
    while 4 * *at < words.len() {
        let record = &words[4 * *at..4 * *at + 4];
        *at += 1;
        let text = || String::from_utf8(rules::text(names, record[1].into(), record[2].into()).unwrap().to_vec()).unwrap();
        let kind = match record[0] {
            0 => TermKind::Symbol(Symbol::Char(char::from_u32(record[1]).unwrap())),
            1 => TermKind::Symbol(Symbol::Identifier(text())),
            2 => TermKind::Symbol(Symbol::Number(stripped(&text()).to_string())),
            3 => TermKind::Bracket(pattern_terms(names, words, at)),
            4 => break,
            8 => TermKind::Call {},
            9 => TermKind::Block {},
            kind => TermKind::Variable(Variable { kind: KINDS[kind as usize - 5], name: text() }),
        };
        made.push(Term { kind });
    }
    made
}

/// The original's list, or its first match alone: `match_pattern_first`, with starting bindings `match_pattern_with_bindings`.
pub fn ask(store: &Store, request: &Request, field: &ViewField, arena: &Slice) -> Result<Vec<Bindings>, MatchError> {
    let pattern = pattern_terms(&store.names, &request.pattern, &mut 0);
    let mut start = Bindings::new();
    for b in request.bindings.chunks(5) {
        let run = arena.sub(b[3] as usize, b[4] as usize);
        start.insert(key(&rules::name(&store.names, b)), ViewField::from_slice(run));
    }
    if !request.first {
        return matcher::match_pattern_with_bindings_candidates(&pattern, field, start);
    }
    if start.is_empty() {
        return matcher::match_pattern_first(&pattern, field).map(|found| vec![found]);
    }
    matcher::match_pattern_with_bindings(&pattern, field, start).map(|found| vec![found])
}

/// A field of the Rust that shows the same terms.
fn shown_field(store: &Store, f: Field, arena: &Slice) -> ViewField {
    let shown = numbers(&nodes_of(store, false).field(f.node, f.len));
    ViewField::from_runs(shown.into_iter().map(|i| arena.sub(i, 1)).collect())
}

fn listed(store: &Store, call: &Call, request: &Request, field: Option<&ViewField>) -> Result<Outcome, String> {
    let (after, start) = match settled(store, request.field) {
        Ok(settled) => settled,
        Err(number) => return Ok(Outcome::refused(number, store, call)),
    };
    let arena = Slice::owned(values(&store.names, used_terms(&after)));
    let found = match field {
        Some(field) => ask(store, request, field, &arena),
        None => ask(store, request, &shown_field(store, request.field, &arena), &arena),
    };
    let none = |answer| Outcome { answer, values: vec![LEFT_ALONE; 2], store: after.clone(), lent: request.slots.clone() };
    let found = match found {
        Err(MatchError::NoMatch) => return Ok(none(10)),
        Err(MatchError::CallsAreNotPatterns) => return Ok(none(11)),
        Ok(found) => found,
    };
    let entries = rules::entries(&store.names, &request.pattern, &request.bindings);
    let fit = if entries.is_empty() { 1 } else { request.slots.len() / (2 * entries.len()) };
    let count = found.len().min(fit);
    let mut slots = request.slots.clone();
    for (i, candidate) in found.iter().take(count).enumerate() {
        let words = placed(&after, request, &entries, start, candidate, arena.terms())?;
        let at = 2 * entries.len() * i;
        slots[at..at + words.len()].copy_from_slice(&words);
    }
    let answer = if found.len() > fit { MORE_THAN_FIT } else { 0 };
    Ok(Outcome { answer, values: vec![count, entries.len()], store: after, lent: slots })
}

/// A candidate's slot: where each of its values stands, and its length. The run there has to be the value, numbers stripped on both sides.
fn placed(
    store: &Store,
    request: &Request,
    entries: &[Name],
    start: usize,
    candidate: &Bindings,
    all: &[Value],
) -> Result<Vec<u32>, String> {
    if candidate.len() != entries.len() {
        return Err("a candidate of the original binds other names".into());
    }
    let found: Vec<Vec<Value>> = entries.iter().map(|name| candidate[&key(name)].to_values()).collect();
    let lengths: Vec<usize> = found.iter().map(Vec::len).collect();
    let mut words = Vec::new();
    for (start, value) in starts(store, request, entries, start, &lengths).into_iter().zip(&found) {
        if all.get(start..start + value.len()).is_none_or(|run| !alike(value, run)) {
            return Err(format!("a candidate of the original has another value at {start}"));
        }
        words.extend([start as u32, value.len() as u32]);
    }
    Ok(words)
}

/// Where the values of a candidate stand, by their lengths: the start's own runs, else the place at which the pattern has the name first.
fn starts(store: &Store, request: &Request, entries: &[Name], start: usize, lengths: &[usize]) -> Vec<usize> {
    let mut starts: Vec<Option<usize>> = request.bindings.chunks(5).map(|b| Some(b[3] as usize)).collect();
    starts.resize(entries.len(), None);
    let (mut at, mut outer) = (start, Vec::new());
    for record in request.pattern.chunks(4) {
        match record[0] {
            3 => {
                outer.push(at + 1);
                at = store.terms[TERM_WIDTH * at + 1] as usize;
            }
            4 => at = outer.pop().expect("a Close after its Open"),
            5..=7 => {
                let name = rules::name(&store.names, record);
                let entry = entries.iter().position(|other| *other == name).expect("a name of the request");
                starts[entry].get_or_insert(at);
                at += lengths[entry];
            }
            _ => at += 1,
        }
    }
    starts.into_iter().map(|start| start.expect("a name of the start or the pattern")).collect()
}

/// A bound of the candidates that a request can have: the Rust builds them all, so large ones are left out.
pub fn candidates_bound(store: &Store, request: &Request) -> f64 {
    let started = request.bindings.len() / 5;
    let open = rules::entries(&store.names, &request.pattern, &request.bindings)[started..].iter().filter(|name| name.0 == 7).count();
    let brackets = used_terms(store).chunks(TERM_WIDTH).filter(|t| t[0] == 3).map(|t| t[2] as usize);
    let longest = brackets.max().unwrap_or(0).max(request.field.len);
    (1..=open).map(|i| (longest + i) as f64 / i as f64).product()
}
