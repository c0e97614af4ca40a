//! Bundles: their bytes, and an independent check of their layout (refusals 1 and 2).

use std::ops::Range;

pub const MOST_BYTES: usize = 1_048_576;
pub const MOST_TEXTS: u64 = 64;
pub const MOST_NAME: usize = 255;

/// Where the name and the text of one number stand in the bundle.
#[derive(Clone, Debug, PartialEq)]
pub struct Place {
    pub name: Range<usize>,
    pub text: Range<usize>,
}

/// A group number: seven bits a byte, lowest first.
pub fn put_group(out: &mut Vec<u8>, mut n: u64) {
    while n >= 128 {
        out.push((n % 128) as u8 | 128);
        n /= 128;
    }
    out.push(n as u8);
}

/// The bundle of these names and texts, in order; nothing is checked.
pub fn of<N: AsRef<[u8]>, T: AsRef<[u8]>>(texts: &[(N, T)]) -> Vec<u8> {
    let mut out = Vec::new();
    put_group(&mut out, texts.len() as u64);
    for (name, text) in texts {
        for part in [name.as_ref(), text.as_ref()] {
            put_group(&mut out, part.len() as u64);
            out.extend(part);
        }
    }
    out
}

/// The bundle of one text.
pub fn single(text: &str) -> Vec<u8> {
    of(&[("t0", text)])
}

struct Bytes<'a> {
    all: &'a [u8],
    at: usize,
}

impl Bytes<'_> {
    fn group(&mut self) -> Option<u64> {
        let mut n = 0;
        for k in 0.. {
            let byte = *self.all.get(self.at)?;
            self.at += 1;
            n += u64::from(byte % 128) << (7 * k);
            if n >= 1 << 32 || k > 4 {
                return None;
            }
            if byte < 128 {
                return (byte != 0 || k == 0).then_some(n);
            }
        }
        None
    }

    fn part(&mut self) -> Option<Range<usize>> {
        let length = self.group()? as usize;
        let start = self.at;
        let end = start + length;
        (end <= self.all.len()).then(|| {
            self.at = end;
            start..end
        })
    }
}

fn layout(bundle: &[u8]) -> Option<Vec<Place>> {
    if bundle.len() > MOST_BYTES {
        return None;
    }
    let mut bytes = Bytes { all: bundle, at: 0 };
    let count = bytes.group()?;
    if !(1..=MOST_TEXTS).contains(&count) {
        return None;
    }
    let mut places: Vec<Place> = Vec::new();
    for _ in 0..count {
        let (name, text) = (bytes.part()?, bytes.part()?);
        if !(1..=MOST_NAME).contains(&name.len()) {
            return None;
        }
        if places.iter().any(|other| bundle[other.name.clone()] == bundle[name.clone()]) {
            return None;
        }
        places.push(Place { name, text });
    }
    (bytes.at == bundle.len()).then_some(places)
}

/// The texts of a bundle, or 1 or 2.
pub fn check(bundle: &[u8]) -> Result<Vec<Place>, u64> {
    let places = layout(bundle).ok_or(1u64)?;
    let utf8 = |range: &Range<usize>| std::str::from_utf8(&bundle[range.clone()]).is_ok();
    if places.iter().all(|place| utf8(&place.name) && utf8(&place.text)) {
        Ok(places)
    } else {
        Err(2)
    }
}

/// Names and texts of a bundle that `check` accepts.
pub fn texts(bundle: &[u8]) -> Vec<(&str, &str)> {
    let text = |range: Range<usize>| std::str::from_utf8(&bundle[range]).unwrap();
    let places = check(bundle).expect("not a bundle");
    places.into_iter().map(|place| (text(place.name), text(place.text))).collect()
}
