//! The comparison of drawing lists over all cases.

use crate::bundles;
use crate::draw_cases::{examples, limits, random_call};
use crate::draws::{entries, model, Answer, Call, Drawn, Tally};
use crate::entities::{self, Entity};
use crate::geodata::reader::probe as reader;
use crate::load_cases::random_bundle;
use crate::load_run::{cut, Files};
use crate::loads::Refusal;
use crate::map_cases::{padded, sound_tables, spoilt, wide_sheet};
use crate::map_run::{spelt, Sheet};
use crate::maps::Handed;
use crate::random::Random;
use crate::run::{shrunk, Part, Plan, Tries};
use crate::sheets;
use crate::style_cases::{style_sheet, tied_sheet, twisted};
use crate::style_run::unlike;
use crate::styles::decode;

/// Lists made for one sheet.
const CALLS: usize = 4;

#[cfg(feature = "rattle")]
fn ours(bundle: &[u8], handed: &Handed, call: &Call) -> Option<Result<Answer, String>> {
    Some(crate::ffi_styles::draw(bundle, handed, call))
}

#[cfg(not(feature = "rattle"))]
fn ours(_: &[u8], _: &Handed, _: &Call) -> Option<Result<Answer, String>> {
    None
}

/// The entities of a call as the original may have them: none where one is broken or a multipolygon is open.
fn asked(call: &Call) -> Option<Vec<Vec<Entity>>> {
    let streams = call.entities()?;
    let closed = streams.get(1).is_none_or(|all| all.iter().all(|entity| entity.kind == 2));
    closed.then_some(streams)
}

/// How the original's list and the model's differ, and how many entities took their styles from its cache; none where the
/// original has no list. A list that is too short is compared as if it had room for all.
fn apart(
    sheet: &mut Sheet,
    call: &Call,
    expected: &Result<Vec<Drawn>, Refusal>,
    shared: bool,
) -> Option<(usize, Option<String>)> {
    let streams = asked(call)?;
    let whole;
    let list = match expected {
        Ok(list) => list,
        Err([25, ..]) => {
            whole = model(&sheet.bundle, &sheet.handed, call, usize::MAX, &mut Tally::default()).ok()?;
            if whole.len() <= call.capacity() {
                return Some((0, Some(format!("{} entries are 25 with {} lent", whole.len(), call.lent))));
            }
            &whole
        }
        Err(_) => return None,
    };
    let numbered = sheet.original.as_mut()?;
    numbered.renew(&call.settings);
    let reader = reader::stream_reader(&streams, shared);
    let streams = reader::streams(&reader, &streams);
    let original = numbered.list(&streams, call.zoom, call.for_labels);
    let cached = numbered.cached(&streams, call.zoom);
    if !original.iter().map(|listed| listed.entry).eq(list.iter().map(|drawn| drawn.entry)) {
        let original: Vec<_> = original.iter().map(|listed| listed.entry).collect();
        let list: Vec<_> = list.iter().map(|drawn| drawn.entry).collect();
        let what = format!("the model is not the original:\n  original {original:?}\n  model    {list:?}");
        return Some((cached, Some(what)));
    }
    for (listed, drawn) in original.iter().zip(list) {
        let (_, style) = decode(&sheet.bundle, &sheet.handed, &drawn.row).expect("the model's row");
        if listed.style != style {
            let (entry, original) = (drawn.entry, &listed.style);
            let what = format!("the style of {entry:?}:\n  original {original:?}\n  model    {style:?}");
            return Some((cached, Some(what)));
        }
    }
    Some((cached, None))
}

/// What the model answers; it panics where the original answers otherwise.
pub fn expected(sheet: &mut Sheet, call: &Call, tally: &mut Tally) -> Answer {
    let expected = model(&sheet.bundle, &sheet.handed, call, call.capacity(), tally);
    if let Some((_, what)) = apart(sheet, call, &expected, true) {
        assert_eq!(what, None);
    }
    entries(&expected)
}

#[derive(Default)]
struct Judged {
    compared: bool,
    cached: usize,
    what: Option<String>,
}

/// Whether the original has an answer, and what is wrong with a case, if anything is.
fn judged(sheet: &mut Sheet, handed: &Handed, call: &Call, shared: bool, tally: &mut Tally) -> Judged {
    let expected = model(&sheet.bundle, handed, call, call.capacity(), tally);
    let mut judged = Judged::default();
    if let Some((cached, what)) = apart(sheet, call, &expected, shared) {
        judged = Judged { compared: true, cached, what };
    }
    if judged.what.is_none() {
        judged.what = unlike(&entries(&expected), ours(&sheet.bundle, handed, call));
    }
    judged
}

impl Part<Tally> {
    /// A sheet's tables as loaded, perhaps with more behind the counts. The cache of the original finds much where equal
    /// strings share a place, and next to nothing where they do not.
    pub fn case(&mut self, sheet: &mut Sheet, handed: &Handed, call: &Call, shared: bool) {
        self.cases += 1;
        let judged = judged(sheet, handed, call, shared, &mut self.tally);
        self.compared += u64::from(judged.compared);
        self.tally.cached(shared, judged.cached);
        if let Some(what) = judged.what {
            let (bundle, call) = (sheet.bundle.clone(), call.clone());
            self.differs(move || shown(&bundle, &call, shared, &what));
        }
    }

    /// Any tables: compares ours with the model.
    fn call(&mut self, bundle: &[u8], handed: &Handed, call: &Call, about: &str) {
        self.cases += 1;
        let expected = entries(&model(bundle, handed, call, call.capacity(), &mut self.tally));
        if let Some(what) = unlike(&expected, ours(bundle, handed, call)) {
            let bundle = bundle.escape_ascii();
            let call = format!("{call:?}");
            let text = format!("{about}: {}, bundle {bundle}, {handed:?}: {what}", cut(&call));
            self.differs(|| text);
        }
    }

    fn calls(&mut self, r: &mut Random, sheet: &mut Sheet, count: usize) {
        for _ in 0..count {
            let call = random_call(r, sheet);
            let handed = if r.one_in(3) { padded(r, &sheet.handed) } else { sheet.handed.clone() };
            self.case(sheet, &handed, &call, r.one_in(2));
        }
    }

    fn written(&mut self) {
        for example in examples() {
            let mut sheet = Sheet::load(&mut self.files, bundles::single(&example.sheet)).expect("an example");
            let handed = sheet.handed.clone();
            let call = example.call();
            [false, true].into_iter().for_each(|shared| self.case(&mut sheet, &handed, &call, shared));
            let got = entries(&model(&sheet.bundle, &handed, &call, call.capacity(), &mut Tally::default()));
            let got =
                got.map(|list| list.iter().map(|e| e.map(|n| n.to_string()).join(".")).collect::<Vec<_>>().join(" "));
            if got.as_deref() != example.answer.as_ref().copied() {
                let (text, answer) = (&example.sheet, &example.answer);
                let text = format!("example {text:?}, {call:?}: expected {answer:?}, the model has {got:?}");
                self.differs(|| text);
            }
        }
        for (text, call, answer) in limits() {
            let mut sheet = Sheet::load(&mut self.files, bundles::single(text)).expect("a sheet at the limits");
            let handed = sheet.handed.clone();
            self.case(&mut sheet, &handed, &call, true);
            // 22 comes first, whatever the streams are
            let mut broken = handed.clone();
            broken.counts[0] += 1;
            self.call(&sheet.bundle, &broken, &call, "a rule too many");
            let got = model(&sheet.bundle, &handed, &call, call.capacity(), &mut Tally::default());
            let got = got.map(|list| list.len());
            if got != answer {
                let lengths: Vec<_> = call.streams.iter().map(Vec::len).collect();
                let lent = call.lent;
                let about = format!("limits {text:?}, {lengths:?} bytes, {lent} lent");
                self.differs(move || format!("{about}: expected {answer:?}, the model has {got:?}"));
            }
        }
    }

    fn sheet(&mut self, r: &mut Random, bundle: Vec<u8>, calls: usize) {
        if let Some(mut sheet) = Sheet::load(&mut self.files, bundle) {
            self.calls(r, &mut sheet, calls);
        }
    }

    fn random_tables(&mut self, r: &mut Random, index: u64) {
        let Some(sheet) = Sheet::load(&mut self.files, bundles::single(&style_sheet(r))) else { return };
        let call = random_call(r, &sheet);
        if index % 500 == 0 {
            return spoilt(&sheet.handed, sheet.bundle.len(), &mut |about, handed| {
                self.call(&sheet.bundle, handed, &call, about);
            });
        }
        for _ in 0..CALLS {
            let tables = twisted(r, &sheet.handed, sheet.bundle.len());
            self.call(&sheet.bundle, &tables, &call, "twisted tables");
        }
        let tables = sound_tables(r, sheet.bundle.len());
        self.call(&sheet.bundle, &tables, &call, "sound tables");
    }
}

/// A differing case with its entities and its first text cut down as far as it still differs.
fn shown(bundle: &[u8], call: &Call, shared: bool, what: &str) -> String {
    let tries = Tries::new();
    let texts = bundles::texts(bundle);
    let files = std::cell::RefCell::new(Files::new());
    let differs = |text: &str, call: &Call| {
        let mut texts = texts.clone();
        texts[0].1 = text;
        let mut sheet = Sheet::load(&mut files.borrow_mut(), bundles::of(&texts))?;
        let handed = sheet.handed.clone();
        judged(&mut sheet, &handed, call, shared, &mut Tally::default()).what
    };
    let mut call = call.clone();
    // only where all entities are sound
    let mut streams = call.entities().unwrap_or_default();
    for stream in 0..streams.len() {
        for k in (0..streams[stream].len()).rev() {
            let mut fewer = streams.clone();
            fewer[stream].remove(k);
            let mut other = call.clone();
            other.streams[stream] = fewer[stream].iter().flat_map(entities::bytes).collect();
            if tries.take() && differs(texts[0].1, &other).is_some() {
                (streams, call) = (fewer, other);
            }
        }
    }
    let small = shrunk(texts[0].1, &|text| tries.take() && differs(text, &call).is_some());
    let what = differs(&small, &call).unwrap_or(what.to_string());
    let spelt: Vec<Vec<_>> = streams.iter().map(|all| all.iter().take(20).map(spelt).collect()).collect();
    let Call { zoom, settings, for_labels, lent, .. } = &call;
    let bytes: Vec<_> = call.streams.iter().map(|all| all[..all.len().min(200)].escape_ascii().to_string()).collect();
    format!(
        "zoom {zoom}, {settings:?}, for labels: {for_labels}, {lent} words lent, strings shared: {shared}, \
         streams {bytes:?}, entities {}, text 0 {small:?} of {}: {what}",
        cut(&format!("{spelt:?}")),
        texts.len()
    )
}

/// Lists for the sheets and for random bundles, about `count`, and half as many with other tables.
pub fn plan(plan: &mut Plan, count: u64) {
    plan.one("draws: written", |run| run.draws.written());
    let sheets = sheets::bundles();
    plan.many("draws: sheets", sheets.len() as u64 * (2 + count / 2_000), 4, |run, r, index| {
        run.draws.sheet(r, bundles::of(&sheets[index as usize % sheets.len()]), 10);
    });
    plan.many("draws: random bundles", count / CALLS as u64, 250, |run, r, index| {
        let bundle = match index % 12 {
            0 => bundles::single(&wide_sheet(r)),
            1 => random_bundle(r),
            2..=5 => bundles::single(&tied_sheet(r)),
            _ => bundles::single(&style_sheet(r)),
        };
        run.draws.sheet(r, bundle, CALLS);
    });
    plan.many("draws: twisted, sound or spoilt tables", count / 3 / CALLS as u64, 100, |run, r, index| {
        run.draws.random_tables(r, index);
    });
}
