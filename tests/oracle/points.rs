//! Named points, from the text of document 02's request 06 and the readings of it: a field and its waiting words are saved
//! under a name in a lent byte store, found there, and restored.

use crate::field::{waiting, Field};
use crate::plan::{self, be16, Plan};
use crate::rules::{Module, WIDTH};
use std::collections::BTreeSet;

/// "Each record is version byte 1, a 32-bit length of what follows, .."
const VERSION: u8 = 1;
const HEAD: usize = 5;

pub const LONGEST_NAME: usize = 12;

/// Bytes of the longest record: 192 modules, 600 links, as many words as the ceiling. MURUAPY_RECORD_BYTES.
pub const LONGEST_RECORD: usize = 74_427;

/// A record of a store: where it stands, and what it says.
#[derive(Clone, Debug, PartialEq, Eq)]
pub struct Point {
    pub at: usize,
    pub size: usize,
    pub name: Vec<u8>,
    pub field: Field,
    /// Those that wait alone.
    pub words: Vec<u64>,
}

/// "Names of 1 to 12 letters a to z."
pub fn is_name(name: &[u8]) -> bool {
    (1..=LONGEST_NAME).contains(&name.len()) && name.iter().all(u8::is_ascii_lowercase)
}

// ---- writing

/// The bytes of a record, of parts that may be wrong: the tests of damaged stores write such ones.
pub fn framed(name: &[u8], field: &[u8], words: &[u64]) -> Vec<u8> {
    let words = words.iter().flat_map(|word| word.to_be_bytes());
    let follows: Vec<u8> = [&[name.len() as u8], name, field].concat().into_iter().chain(words).collect();
    [&[VERSION], &(follows.len() as u32).to_be_bytes()[..], &follows].concat()
}

/// "The field is its plan's version 1 bytes, the sent count, then for each module its values in document 01's order, the
/// waking link after halted, and its marks by link number. Values, marks and count take 16 bits."
pub fn field_numbers(field: &Field) -> Vec<u16> {
    let mut numbers = vec![field.sent as u16];
    for v in 0..field.plan.modules {
        numbers.extend(field.modules[v as usize].values());
        numbers.extend(field.own_marks(v).iter().map(|(_, mark)| *mark as u16));
    }
    numbers
}

pub fn field_bytes(plan: &[u8], numbers: &[u16]) -> Vec<u8> {
    plan.iter().copied().chain(numbers.iter().flat_map(|number| number.to_be_bytes())).collect()
}

/// The record of a field and its words under a name, with the words that wait alone.
pub fn record(name: &[u8], field: &Field, words: &[u64]) -> Vec<u8> {
    framed(name, &field_bytes(&field.plan.encode(), &field_numbers(field)), &words[..waiting(words)])
}

// ---- reading

/// Bytes that are read from the front.
struct Reader<'a>(&'a [u8]);

impl<'a> Reader<'a> {
    fn take(&mut self, count: usize) -> Option<&'a [u8]> {
        let taken = self.0.get(..count)?;
        self.0 = &self.0[count..];
        Some(taken)
    }

    fn number(&mut self) -> Option<u16> {
        Some(be16(self.take(2)?, 0))
    }

    /// "A name length byte, the name."
    fn name(&mut self) -> Option<Vec<u8>> {
        let length = self.take(1)?[0] as usize;
        let name = self.take(length)?.to_vec();
        is_name(&name).then_some(name)
    }

    /// The plan, cut by its own length number, then read as version 1.
    fn plan(&mut self) -> Option<Plan> {
        let length = be16(self.0.get(..3)?, 1) as usize;
        plan::read(self.take(3 + length)?).ok()
    }

    fn module(&mut self) -> Option<Module> {
        let mut values = [0; WIDTH];
        for value in &mut values {
            *value = self.number()?;
        }
        Some(Module::of(values))
    }

    /// The field. A mark of more than 8 bits is outside its list, as 31 would say.
    fn field(&mut self) -> Option<Field> {
        let plan = self.plan()?;
        let sent = self.number()? as u32;
        let mut marks = vec![[0, 0]; plan.links.len()];
        let mut modules = Vec::new();
        for v in 0..plan.modules {
            modules.push(self.module()?);
            for k in plan.own_links(v) {
                let side = (plan.links[k as usize].lower != v) as usize;
                marks[k as usize][side] = u8::try_from(self.number()?).ok()?;
            }
        }
        Some(Field { plan, modules, marks, sent })
    }

    /// All that is left is words, and one that is 0 does not wait.
    fn words(&mut self) -> Option<Vec<u64>> {
        let words = self.0.chunks(8).map(|bytes| Some(u64::from_be_bytes(bytes.try_into().ok()?)));
        words.map(|word| word.filter(|word| *word != 0)).collect()
    }
}

/// "Its field, its words filled up with zeros to M, would meet 31."
fn meets_31(field: &Field, words: &[u64]) -> bool {
    let mut filled = words.to_vec();
    filled.resize(words.len().max(field.plan.ceiling() as usize), 0);
    field.check(&filled).is_err()
}

/// The record at a place of the store, where one begins: whole, its name good, its field and words too.
fn point_at(store: &[u8], at: usize) -> Option<Point> {
    let mut reader = Reader(&store[at..]);
    if reader.take(1)? != [VERSION] {
        return None;
    }
    let length = u32::from_be_bytes(reader.take(4)?.try_into().unwrap()) as usize;
    let mut inside = Reader(reader.take(length)?);
    let (name, field, words) = (inside.name()?, inside.field()?, inside.words()?);
    (!meets_31(&field, &words)).then_some(Point { at, size: HEAD + length, name, field, words })
}

/// All points of a store: "76 the store isn't whole records with zeros after, or a record's name is bad or held twice, or
/// its field .. would meet 31". Records end at the first byte 0 where one would begin.
pub fn points(store: &[u8]) -> Result<Vec<Point>, u32> {
    let mut all = Vec::new();
    let mut at = 0;
    while store.get(at).is_some_and(|byte| *byte != 0) {
        let point = point_at(store, at).ok_or(76u32)?;
        at += point.size;
        all.push(point);
    }
    let names: BTreeSet<&Vec<u8>> = all.iter().map(|point| &point.name).collect();
    if names.len() < all.len() || store[at..].iter().any(|byte| *byte != 0) {
        return Err(76);
    }
    Ok(all)
}

// ---- the calls

/// "Saving under a held name replaces it: the old record goes, the others close up in their order, the new one stands last
/// with zeros after." 31 for the field, 76, 77 for the name, 78.
pub fn save(store: &mut [u8], name: &[u8], field: &Field, words: &[u64]) -> Result<(), u32> {
    field.check(words)?;
    let points = points(store)?;
    if !is_name(name) {
        return Err(77);
    }
    let others = points.iter().filter(|point| point.name != name);
    let mut saved: Vec<u8> = others.flat_map(|point| store[point.at..point.at + point.size].to_vec()).collect();
    saved.extend(record(name, field, words));
    if saved.len() > store.len() {
        return Err(78);
    }
    saved.resize(store.len(), 0);
    store.copy_from_slice(&saved);
    Ok(())
}

/// "Finding a name shows its record as a part of the lent store": 76, 77.
pub fn find(store: &[u8], name: &[u8]) -> Result<Point, u32> {
    // a bad name is never held
    points(store)?.into_iter().find(|point| point.name == name).ok_or(77)
}

/// "Restoring brings back the saved field and its sent count", "zeroes the words after the waiting ones": 76, 77, and "21
/// for fewer words than M comes last".
pub fn restore(store: &[u8], name: &[u8], words: &mut [u64]) -> Result<Field, u32> {
    let point = find(store, name)?;
    if words.len() < point.field.plan.ceiling() as usize {
        return Err(21);
    }
    words.fill(0);
    words[..point.words.len()].copy_from_slice(&point.words);
    Ok(point.field)
}
