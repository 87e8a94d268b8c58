//! Clock skew corrected in plain Rust, by the rules of `docs/store.md` ("Adjusted traces") and without proofs.

use crate::batch::{RefKind, Span, Value};
use crate::Held;
use std::collections::HashMap;

/// A span of a trace, by how much it was moved, and what is said of it.
pub struct Shown<'a> {
    pub held: &'a Held,
    pub moved: i64,
    pub warning: Option<String>,
}

/// The clock that a span runs by: its host, what was to be added, and the span's own time as it is shown.
#[derive(Clone, Copy)]
struct Clock<'a> {
    host: &'a str,
    delta: i128,
    start: i128,
    duration: i128,
}

fn host(held: &Held) -> &str {
    match held.process.tags.iter().find(|tag| tag.key == "ip").map(|tag| &tag.value) {
        Some(Value::Text(text)) => text,
        _ => "",
    }
}

/// The id of the parent: the first child-of reference to the own trace, else the first other one.
fn parent(span: &Span) -> Option<u64> {
    let mut own = span.references.iter().filter(|r| r.trace == span.trace);
    let child = own.clone().find(|r| r.kind == RefKind::ChildOf);
    child.or_else(|| own.next()).map(|r| r.id).filter(|id| *id != 0)
}

/// What brings a child into its parent's time.
fn delta(above: Clock, span: &Span) -> i128 {
    let (start, long) = (i128::from(span.start), i128::from(span.duration));
    if long > above.duration {
        return if start < above.start { above.start - start } else { 0 };
    }
    if above.start <= start && start + long <= above.start + above.duration {
        return 0;
    }
    above.start + (above.duration - long) / 2 - start
}

fn fits(delta: i128, span: &Span) -> bool {
    let fits = |at: i64| i64::try_from(i128::from(at) + delta).is_ok();
    fits(span.start) && span.logs.iter().all(|log| fits(log.at))
}

impl Shown<'_> {
    /// Moves the span, or says why not; its start as it is shown.
    fn shift(&mut self, delta: i128, max_skew: u64) -> i128 {
        let span = &self.held.span;
        if delta != 0 && delta.unsigned_abs() > u128::from(max_skew) {
            self.warning = Some(format!("clock skew of {delta} us not applied: the limit is {max_skew} us"));
        } else if delta != 0 && !fits(delta, span) {
            self.warning = Some(format!("clock skew of {delta} us not applied: a time would not fit"));
        } else if delta != 0 {
            self.warning = Some(format!("clock skew adjusted by {delta} us"));
            self.moved = delta as i64;
        }
        i128::from(span.start) + i128::from(self.moved)
    }
}

/// The spans of a trace, each by its clock, from the roots down.
pub fn adjusted<'a>(spans: &[&'a Held], max_skew: u64) -> Vec<Shown<'a>> {
    let mut shown: Vec<Shown> = spans.iter().map(|held| Shown { held, moved: 0, warning: None }).collect();
    let mut places: HashMap<u64, usize> = HashMap::new();
    for (place, held) in spans.iter().enumerate() {
        places.entry(held.span.id).or_insert(place);
    }
    let mut below: Vec<Vec<usize>> = vec![Vec::new(); spans.len()];
    let mut due: Vec<(usize, Option<Clock>)> = Vec::new();
    for (place, held) in spans.iter().enumerate().filter(|(place, held)| places[&held.span.id] == *place) {
        match parent(&held.span).and_then(|id| places.get(&id)) {
            Some(above) => below[*above].push(place),
            None => due.push((place, None)),
        }
    }
    while let Some((place, above)) = due.pop() {
        let held = spans[place];
        let own = host(held);
        let (host, delta) = match above {
            None => (own, 0),
            Some(clock) if own.is_empty() || own != clock.host => (own, delta(clock, &held.span)),
            Some(clock) => (clock.host, clock.delta),
        };
        let start = shown[place].shift(delta, max_skew);
        let clock = Clock { host, delta, start, duration: i128::from(held.span.duration) };
        due.extend(below[place].iter().map(|child| (*child, Some(clock))));
    }
    shown
}
