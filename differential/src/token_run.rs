//! The comparison of token streams over all cases.

use crate::cases::{all_short, every_character, long_numbers, random_case, ALPHABET, BEGINNINGS, EXAMPLES};
use crate::run::{shrunk, Part, Plan};
use crate::sheets;
use crate::tokens::{self, Counts};

impl Part<Counts> {
    pub fn text(&mut self, text: &str) {
        self.cases += 1;
        self.compared += 1;
        let original = tokens::original(text);
        self.tally.add(&original);
        if tokens::difference(&original, &tokens::ours(text)).is_some() {
            let text = text.to_string();
            self.differs(move || {
                let small = shrunk(&text, &|t| difference(t).is_some());
                format!("{small:?}: {}", difference(&small).unwrap())
            });
        }
    }
}

fn difference(text: &str) -> Option<String> {
    tokens::difference(&tokens::original(text), &tokens::ours(text))
}

/// All short texts, every character, the sheets, and `count` random texts.
pub fn plan(plan: &mut Plan, count: u64) {
    plan.one("tokens: written", |run| {
        EXAMPLES.iter().for_each(|text| run.tokens.text(text));
        long_numbers().iter().for_each(|text| run.tokens.text(text));
        run.tokens.text("");
    });
    for first in ALPHABET.chars() {
        plan.one("tokens: short texts", move |run| {
            all_short(&first.to_string(), 3, &mut |text| run.tokens.text(text));
        });
    }
    for beginning in BEGINNINGS {
        plan.one("tokens: short texts behind a beginning", move |run| {
            all_short(beginning, 3, &mut |text| run.tokens.text(text));
        });
    }
    for plane in 0..=0x10 {
        plan.one("tokens: every character", move |run| {
            every_character(plane << 16..=(plane << 16 | 0xffff), &mut |text| run.tokens.text(text));
        });
    }
    plan.one("tokens: sheets", |run| sheets::texts().iter().for_each(|text| run.tokens.text(text)));
    plan.many("tokens: random and damaged texts", count, 10_000, |run, r, _| {
        run.tokens.text(&random_case(r, sheets::texts()));
    });
}
