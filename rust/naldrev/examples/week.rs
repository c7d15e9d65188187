//! A week of one charging session: written, joined, cut and joined again, priced, billed. Run it by `cargo run --example week`.

use std::io::{self, Write};

use naldrev::{sentences, Bindings, Candidate, Expression, Field, Pattern, Prepared, Store};

type Result<T> = std::result::Result<T, Box<dyn std::error::Error>>;

/// The price sentences. Their right sides are for the reader: the invoice line is written by hand below.
const TARIFF: &str = "
* A session that stays at one rate.
Day:   e.before Session s.point (Start s.from) e.meters (Stop s.to) (kWh s.energy) (Rate Day)   = <DayPrice s.energy>;
Night: e.before Session s.point (Start s.from) e.meters (Stop s.to) (kWh s.energy) (Rate Night) = <NightPrice s.energy>;
* A session during which the rate changes.
Mixed: e.before Session s.point (Start s.from) e.day (Rate Night) e.night (Stop s.to) (kWh s.energy) s.sign (Rate s.last) = Held;
";

fn text(text: &str) -> Result<Expression> {
    Ok(text.parse()?)
}

/// Monday: the charging bay writes the session's message. Tuesday: the site box joins it behind the readings that came in before.
fn collect(store: &mut Store) -> Result<Field> {
    let session =
        store.message(&text("Session Harbour-3 (Start 1015) (Meter 1015 1208) (Meter 1140 1250) (Stop 1140) (kWh 42) (Rate Day)")?)?;
    let earlier = store.message(&text("(Meter 0700 1190) (Meter 0900 1201)")?)?;
    Ok(store.join(earlier, session)?)
}

/// Wednesday: the collector cuts the message before its session and joins the parts again. The rope is another, the terms are the same.
fn cut_and_join(store: &mut Store, message: Field) -> Result<Field> {
    let place = store.prepare(&"e.before Session e.after".parse::<Pattern>()?)?;
    let found = store.first(message, &place, &Bindings::NONE)?.ok_or("the message has no session")?;
    let at = found.run("e.before").ok_or("e.before is in the pattern")?.len();
    let (before, after) = (store.take(message, at)?, store.rest(message, at)?);
    let joined = store.join(before, after)?;
    assert!(store.equal(message, joined)?);
    Ok(joined)
}

/// Thursday: the price sentences are tried in order. A session that fits two is held back.
fn price(store: &mut Store, message: Field, tariff: &[(String, Prepared)]) -> Result<Option<(String, Candidate)>> {
    let mut found = None;
    for (name, pattern) in tariff {
        if let Some(candidate) = store.first(message, pattern, &Bindings::NONE)? {
            if found.is_some() {
                return Ok(None);
            }
            found = Some((name.clone(), candidate));
        }
    }
    Ok(found)
}

/// Friday: what the variables stand for becomes the invoice line.
fn invoice(store: &Store, rate: &str, candidate: &Candidate, out: &mut impl Write) -> Result<()> {
    let shown = |variable: &str| -> Result<String> {
        let terms = candidate.get(store, variable)?.ok_or("a variable of every sentence")?;
        Ok(terms.to_string())
    };
    writeln!(out, "{}: {} kWh, {} to {}, {rate} rate", shown("s.point")?, shown("s.energy")?, shown("s.from")?, shown("s.to")?)?;
    Ok(())
}

/// The week, with the invoice line written to `out`.
pub fn week(out: &mut impl Write) -> Result<()> {
    let mut store = Store::new();
    let mut tariff = Vec::new();
    for sentence in sentences(TARIFF)? {
        tariff.push((sentence.name.unwrap_or_default(), store.prepare(&sentence.left)?));
    }
    let message = collect(&mut store)?;
    let message = cut_and_join(&mut store, message)?;
    writeln!(out, "message: {}", store.values(message)?)?;
    match price(&mut store, message, &tariff)? {
        Some((rate, candidate)) => invoice(&store, &rate, &candidate, out),
        None => Ok(writeln!(out, "held back: no sentence fits, or two do")?),
    }
}

#[allow(dead_code)] // the tests call `week` alone
fn main() -> Result<()> {
    week(&mut io::stdout().lock())
}
