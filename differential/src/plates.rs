//! What the program plate prints for an input, by the models of loads and of property maps.

use crate::bundles::put_group;
use crate::loads::{Lent, Refusal, PROPERTIES, SELECTORS};
use crate::maps::{self, Handed, Tally};
use crate::model;
use std::collections::BTreeSet;

pub const MOST_BYTES: usize = 60_000;
/// Tables of 512 entries.
const LENT: Lent = [4096, 4096, 4096, 4096, 512, 4096];

pub fn input(zoom: u8, bundle: &[u8], entity: &[u8]) -> Vec<u8> {
    let mut out = vec![zoom];
    put_group(&mut out, bundle.len() as u64);
    out.extend(bundle);
    out.extend(entity);
    out
}

/// The group number at the start, the shortest way to write it, and its width.
fn group(s: &[u8]) -> Option<(usize, usize)> {
    let mut n: u64 = 0;
    for (k, &byte) in s.iter().enumerate().take(5) {
        n += u64::from(byte % 128) << (7 * k);
        if byte < 128 {
            let shortest = k == 0 || byte != 0;
            return (shortest && n < 1 << 32).then_some((n as usize, k + 1));
        }
    }
    None
}

/// Zoom, bundle and entity.
fn parts(input: &[u8]) -> Option<(u8, &[u8], &[u8])> {
    if input.len() > MOST_BYTES {
        return None;
    }
    let (&zoom, rest) = input.split_first()?;
    let (length, width) = group(rest)?;
    let rest = &rest[width..];
    (length <= rest.len()).then(|| (zoom, &rest[..length], &rest[length..]))
}

fn lines(input: &[u8], tally: &mut Tally) -> Result<Vec<u8>, Refusal> {
    let (zoom, bundle, entity) = parts(input).ok_or([1, 0, 0, 0, 0])?;
    let tables = model::load(bundle, &LENT)?;
    let layers = maps::model(bundle, &Handed::of(&tables), zoom, entity, tally)?;
    let text = |from: u32, to: u32| &bundle[from as usize..to as usize];
    let mut out = Vec::new();
    for layer in layers {
        let selector = tables.entries[SELECTORS][layer.selector as usize];
        out.extend(b"layer ");
        out.extend(if selector[5] == 1 { text(selector[6], selector[7]) } else { b"default" });
        out.push(b'\n');
        for number in layer.properties {
            let property = tables.entries[PROPERTIES][number as usize];
            out.extend(text(property[1], property[2]));
            out.extend(format!(" {number}\n").bytes());
        }
    }
    Ok(out)
}

/// The output, and the refusal's number where it is one.
pub fn printed(input: &[u8], tally: &mut Tally, refused: &mut BTreeSet<u64>) -> Vec<u8> {
    lines(input, tally).unwrap_or_else(|numbers| {
        refused.insert(numbers[0]);
        let numbers = numbers.map(|n| n.to_string()).join(" ");
        format!("refused {numbers}\n").into_bytes()
    })
}
