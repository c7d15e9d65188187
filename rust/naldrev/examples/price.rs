//! Lists the prices of an order. Run it by `cargo run --example price`.

use naldrev::{Bindings, Error, Expression, Pattern, Store};

fn main() -> Result<(), Error> {
    let order: Expression = "Order (Apples Price 120) (Pears Price 95)".parse()?;
    let price: Pattern = "e.before (s.item Price s.amount) e.after".parse()?;

    let mut store = Store::new();
    let message = store.message(&order)?;
    let pattern = store.prepare(&price)?;
    for candidate in &store.candidates(message, &pattern, &Bindings::NONE, 16)? {
        for (variable, terms) in candidate.terms(&store)? {
            println!("{variable} = {terms}");
        }
        println!();
    }
    Ok(())
}
