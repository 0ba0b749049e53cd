//! Runs cases past all sides and counts where they agree.

use crate::case::{Answer, Call, Case};
use crate::float::Real;
use crate::make::{make, Size};
use crate::{definition, differences, listed, ours};
use std::collections::BTreeMap;

/// How often something happened, and the shortest case that shows it.
#[derive(Default)]
struct Seen {
    times: u64,
    shortest: Option<String>,
}

impl Seen {
    fn note(&mut self, shown: impl FnOnce() -> String) {
        self.times += 1;
        let shown = shown();
        if self.shortest.as_ref().is_none_or(|s| shown.len() < s.len()) {
            self.shortest = Some(shown);
        }
    }
}

#[derive(Default)]
pub struct Tally {
    cases: u64,
    accepted: u64,
    refused: u64,
    not_asked: u64,
    /// Answers of the library that were held against the definitions.
    ours: u64,
    /// For each call how often it was accepted, and refused with each number, by definition.
    verdicts: BTreeMap<Call, [u64; 12]>,
    known: BTreeMap<&'static str, Seen>,
    unknown: BTreeMap<String, Seen>,
    /// The listed Rust's answers in one number, to compare runs by.
    digest: u64,
}

/// The cases from place 0 on, f64 and f32 in turn.
pub fn run(seed: u64, count: u64) -> Tally {
    let mut tally = Tally {
        digest: 0xcbf2_9ce4_8422_2325,
        ..Tally::default()
    };
    for place in 0..count {
        if place % 2 == 0 {
            tally.judge::<f64>(place, &make(seed, place, Size::Any));
        } else {
            tally.judge::<f32>(place, &make(seed, place, Size::Any));
        }
    }
    tally
}

impl Tally {
    fn judge<T: Real>(&mut self, place: u64, case: &Case<T>) {
        let rust = listed::answers(case);
        let defined = definition::answer(case);
        self.cases += 1;
        let number = match defined {
            Answer::Refused(number) => number,
            _ => 0,
        };
        self.verdicts.entry(case.call).or_default()[usize::from(number)] += 1;
        // A count near the largest word wraps in a release build of the Rust and panics in others.
        if case.counts.iter().all(|count| *count < 1 << 63) {
            self.digest(&rust[0]);
        }
        let shown = |what: &str, answer: &Answer| {
            let other = defined.fields::<T>();
            format!(
                "place {place}: {}\n{what}: {}\nthe definitions: {other}",
                case.fields(),
                answer.fields::<T>()
            )
        };
        let word = case.call.word();
        if let Some(form) = rust.iter().find(|answer| **answer != rust[0]) {
            let seen = self
                .unknown
                .entry(format!("{word}: the Rust's forms differ"));
            seen.or_default()
                .note(|| shown("another form of the Rust", form));
        }
        match (&rust[0], &defined) {
            (Answer::Absent, _) => self.not_asked += 1,
            (Answer::Refused(_), Answer::Refused(_)) => self.refused += 1,
            (Answer::Accepted(..), _) if rust[0] == defined => self.accepted += 1,
            _ => {
                let seen = match differences::name(case, &rust[0], &defined) {
                    Some(name) => self.known.entry(name).or_default(),
                    None => self
                        .unknown
                        .entry(format!("{word}: the Rust differs"))
                        .or_default(),
                };
                seen.note(|| shown("the Rust", &rust[0]));
            }
        }
        let ours = ours::answer(case);
        if ours != Answer::Absent {
            self.ours += 1;
            if ours != defined {
                let seen = self.unknown.entry(format!("{word}: the library differs"));
                seen.or_default().note(|| shown("the library", &ours));
            }
        }
    }

    fn digest(&mut self, answer: &Answer) {
        let mut take =
            |word: u64| self.digest = (self.digest ^ word).wrapping_mul(0x0100_0000_01b3);
        match answer {
            Answer::Absent => take(1),
            Answer::Refused(_) => take(2),
            Answer::Accepted(bits, root) => {
                take(3);
                bits.iter().for_each(|b| take(*b));
                if let Some((found, row)) = root {
                    take(u64::from(*found));
                    take(*row as u64);
                }
            }
        }
    }

    /// Prints the counts; true where nothing differs outside the list.
    pub fn report(&self) -> bool {
        println!("cases by call: accepted, then refused with 1 to 11");
        for (call, counts) in &self.verdicts {
            let counts: String = counts.iter().map(|count| format!("{count:>7}")).collect();
            println!("{:>30}{counts}", call.word());
        }
        println!(
            "{} accepted alike, {} refused alike",
            self.accepted, self.refused
        );
        println!(
            "{} where the Rust has no form for the operands",
            self.not_asked
        );
        if ours::LINKED {
            println!(
                "{} answers of the library held against the definitions",
                self.ours
            );
        } else {
            println!("the library was not linked: the Rust against the definitions only");
        }
        for (name, seen) in &self.known {
            println!("{} known: {name}", seen.times);
        }
        for (name, seen) in &self.unknown {
            println!("{} DIFFER: {name}", seen.times);
            println!("{}", seen.shortest.as_deref().unwrap_or_default());
        }
        println!("digest of the Rust's answers: {:016x}", self.digest);
        let differ: u64 = self.unknown.values().map(|seen| seen.times).sum();
        println!("{} cases, {differ} differ outside the list", self.cases);
        differ == 0
    }
}
