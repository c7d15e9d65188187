//! Marks on random stores: a handle shows what it showed when it was made, or it is refused; one made before the mark is never refused.

#[allow(dead_code)] // the random numbers alone are used here
mod generate;

use generate::Random;
use naldrev::{e, Bindings, Candidate, Error, Expression, Field, Item, Mark, Prepared, Run, Store};

const STORES: u64 = 400;
const STEPS: usize = 60;
const WORDS: [&str; 6] = ["Day", "Night", "kWh", "A", "B", "C"];

#[derive(Clone)]
enum Handle {
    Field(Field),
    Run(Run),
    Pattern(Prepared),
    Start(Bindings),
    Candidate(Candidate),
}

/// A handle or a mark, with what it showed when it was made.
struct Made<T, S> {
    handle: T,
    shown: S,
    step: usize,
    /// Whether the store was put back to a mark made before it.
    lost: bool,
}

/// What a store has in use.
type Parts = (Vec<u8>, Vec<u32>, Vec<u32>);

fn parts(store: &Store) -> Parts {
    let (terms, nodes) = (store.terms_used() * naldrev::TERM_WIDTH, store.nodes_used() * naldrev::NODE_WIDTH);
    (store.names().to_vec(), store.term_words()[..terms].to_vec(), store.node_words()[..nodes].to_vec())
}

fn show_candidate(store: &Store, candidate: &Candidate) -> Result<String, Error> {
    Ok(candidate.terms(store)?.map(|(variable, terms)| format!("{variable} = {terms};")).collect())
}

fn show(store: &mut Store, handle: &Handle) -> Result<String, Error> {
    match handle {
        Handle::Field(field) => Ok(store.values(*field)?.to_string()),
        Handle::Run(run) => Ok(store.terms(*run)?.to_string()),
        Handle::Pattern(pattern) => {
            store.first(Field::EMPTY, pattern, &Bindings::NONE)?;
            let text = |r: &[u32]| String::from_utf8_lossy(&store.names()[r[1] as usize..][..r[2] as usize]).into_owned();
            Ok(pattern.words().chunks_exact(naldrev::PATTERN_WIDTH).map(text).collect())
        }
        Handle::Start(start) => {
            let nothing = store.pattern_of_words(Vec::new());
            let candidate = store.first(Field::EMPTY, &nothing, start)?.expect("nothing fits nothing");
            show_candidate(store, &candidate)
        }
        Handle::Candidate(candidate) => show_candidate(store, candidate),
    }
}

/// Some used terms.
fn some_run(store: &Store, random: &mut Random) -> Run {
    let start = random.below(store.terms_used() + 1);
    store.run(start, random.below((store.terms_used() - start).min(3) + 1))
}

/// Makes a handle of any kind, with texts that come again and again.
fn make(store: &mut Store, random: &mut Random, field: Field) -> Result<Handle, Error> {
    let word = random.pick(&WORDS);
    Ok(match random.below(9) {
        0 => Handle::Field(store.message(&format!("{word} ({})", random.pick(&WORDS)).parse::<Expression>()?)?),
        1 => Handle::Field(store.join(field, field)?),
        2 => Handle::Field(store.take(field, random.below(field.len() + 1))?),
        3 => Handle::Run(some_run(store, random)),
        4 => Handle::Run(store.add_char('x')?),
        5 => Handle::Pattern(store.prepare(&[e(word).into()])?),
        6 => Handle::Pattern(store.prepare(&[Item::Identifier(word.into())])?),
        7 => {
            let run = some_run(store, random);
            Handle::Start(store.bindings(&[(e(word), run)])?)
        }
        _ => {
            let all = store.prepare(&[e("all").into()])?;
            Handle::Candidate(store.first(field, &all, &Bindings::NONE)?.expect("e.all fits all"))
        }
    })
}

/// A field that is still good, and not long.
fn good_field(made: &[Made<Handle, String>], random: &mut Random) -> Field {
    let good = |m: &Made<Handle, String>| match m.handle {
        Handle::Field(field) if !m.lost && field.len() < 100 => Some(field),
        _ => None,
    };
    let fields: Vec<Field> = made.iter().filter_map(good).collect();
    if fields.is_empty() {
        Field::EMPTY
    } else {
        fields[random.below(fields.len())]
    }
}

/// Puts the store back to a mark; when it was made, if it was not refused.
fn put_back(store: &mut Store, mark: &Made<Mark, Parts>) -> Option<usize> {
    match store.put_back(mark.handle) {
        Ok(()) => {
            assert_eq!(parts(store), mark.shown);
            Some(mark.step)
        }
        Err(error) => {
            assert!(mark.lost && error == Error::PutBack, "{error}");
            None
        }
    }
}

#[test]
fn handles_show_the_same_or_are_refused() {
    let (mut good, mut refused) = (0, 0);
    for seed in 1..=STORES {
        let mut random = Random::new(seed);
        let mut store = Store::new();
        let mut made: Vec<Made<Handle, String>> = Vec::new();
        let mut marks: Vec<Made<Mark, Parts>> = Vec::new();
        for step in 0..STEPS {
            let back = match random.below(4) {
                0 => {
                    marks.push(Made { handle: store.mark(), shown: parts(&store), step, lost: false });
                    None
                }
                1 if !marks.is_empty() => put_back(&mut store, &marks[random.below(marks.len())]),
                _ => {
                    let field = good_field(&made, &mut random);
                    let handle = make(&mut store, &mut random, field).unwrap();
                    let shown = show(&mut store, &handle).unwrap();
                    made.push(Made { handle, shown, step, lost: false });
                    None
                }
            };
            let Some(back) = back else { continue };
            marks.iter_mut().for_each(|m| m.lost |= m.step > back);
            made.iter_mut().for_each(|m| m.lost |= m.step > back);
        }
        for m in &made {
            match show(&mut store, &m.handle) {
                Ok(shown) => assert_eq!(shown, m.shown, "seed {seed}, step {}", m.step),
                Err(error) => assert!(m.lost && error == Error::PutBack, "{error}: seed {seed}, step {}", m.step),
            }
            *(if m.lost { &mut refused } else { &mut good }) += 1;
        }
    }
    assert!(good > STORES && refused > STORES, "{good} good, {refused} refused");
}
