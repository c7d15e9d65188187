//! Lists of calls that build fields, each written once for both sides.
use crate::inputs::Both;
use crate::port::{self, Call, Field, Store};
use crate::timing::ListTimes;
use original::value::ViewField;

/// The calls on either side.
pub trait Ropes {
    type Field: Clone;
    fn join(&mut self, left: Self::Field, right: Self::Field) -> Self::Field;
    fn take(&mut self, field: &Self::Field, count: usize) -> Self::Field;
    fn rest(&mut self, field: &Self::Field, count: usize) -> Self::Field;
    fn len(field: &Self::Field) -> usize;
}

/// The Rust. Its `take` is not public; a range from 0 on is.
pub struct Plain;

impl Ropes for Plain {
    type Field = ViewField;

    fn join(&mut self, left: ViewField, right: ViewField) -> ViewField {
        left.concat(right)
    }

    fn take(&mut self, field: &ViewField, count: usize) -> ViewField {
        field.range(0, count)
    }

    fn rest(&mut self, field: &ViewField, count: usize) -> ViewField {
        field.rest(count)
    }

    fn len(field: &ViewField) -> usize {
        field.len()
    }
}

/// The port, each call timed. The checks of a call are those that `take` of the whole field makes, over the same nodes.
pub struct Port<'a> {
    pub store: &'a mut Store,
    pub times: &'a mut ListTimes,
}

impl Port<'_> {
    fn make(&mut self, call: Call, field: Field) -> Field {
        let whole_field = Call::Take(field, field.len);
        let mut out = [0; 2];
        let checked = self.times.checks(|| port::read(self.store, &whole_field, &mut [], &mut out));
        let answer = self.times.whole(|| match call {
            Call::Take(..) => port::read(self.store, &call, &mut [], &mut out),
            _ => port::build(self.store, &call, &mut out),
        });
        assert_eq!((checked, answer), (0, 0), "a call that builds");
        Field { node: out[0], len: out[1] }
    }
}

impl Ropes for Port<'_> {
    type Field = Field;

    fn join(&mut self, left: Field, right: Field) -> Field {
        self.make(Call::Join(left, right), left)
    }

    fn take(&mut self, field: &Field, count: usize) -> Field {
        self.make(Call::Take(*field, count), *field)
    }

    fn rest(&mut self, field: &Field, count: usize) -> Field {
        self.make(Call::Rest(*field, count), *field)
    }

    fn len(field: &Field) -> usize {
        field.len
    }
}

/// A list of calls over given fields.
#[derive(Clone, Copy)]
pub enum Steps {
    /// Each field joined after those before it.
    Append,
    /// Each field joined before those before it.
    Prepend,
    /// The first field without its first term, and so on to its end.
    Rest,
    /// The first field cut at a hundred places, one after the other, its parts joined the other way round each time.
    Cut,
}

pub fn run<R: Ropes>(steps: Steps, ropes: &mut R, fields: &[R::Field]) -> R::Field {
    let mut made = fields[0].clone();
    match steps {
        Steps::Append => {
            for field in &fields[1..] {
                made = ropes.join(made, field.clone());
            }
        }
        Steps::Prepend => {
            for field in &fields[1..] {
                made = ropes.join(field.clone(), made);
            }
        }
        Steps::Rest => {
            while R::len(&made) > 0 {
                made = ropes.rest(&made, 1);
            }
        }
        Steps::Cut => {
            for i in 0..100 {
                let at = 1 + (37 * i + 11) % (R::len(&made) - 1);
                let (front, back) = (ropes.take(&made, at), ropes.rest(&made, at));
                made = ropes.join(back, front);
            }
        }
    }
    made
}

/// A list of calls made on both sides.
pub fn both(steps: Steps, store: &mut Store, fields: &[Both]) -> Both {
    let on_port: Vec<Field> = fields.iter().map(|both| both.field).collect();
    let on_rust: Vec<ViewField> = fields.iter().map(|both| both.plain.clone()).collect();
    let field = run(steps, &mut Port { store, times: &mut ListTimes::default() }, &on_port);
    Both { field, plain: run(steps, &mut Plain, &on_rust) }
}
