//! Sorts of input that document 02, Point 4 brings, by what is drawn and how it comes out: each of them must be seen often enough, so that
//! a drawing which stops making them in one of its ways does not go unnoticed.

use crate::cards::{DECLINED, NOT_DECLINED};
use crate::inputs::{Call, Input};
use crate::limits::MOST_PARTS;
use crate::outcomes::Outcome;
use crate::tables::DECLINED as MARK;
use reference::Part;

/// The kinds of the two tests as parts, and those of the parts around them.
const TESTS: [u8; 2] = [16, 17];
const NOT: u8 = 3;
const FROMS: [u8; 3] = [7, 8, 9];
const TRUTH_TESTS: [u8; 6] = [10, 11, 12, 13, 14, 15];

/// The tag of a constant.
const CONSTANT: u8 = 255;

/// An input, how it came out, and what the reference wrote.
pub struct Seen<'a> {
    input: &'a Input,
    outcome: Outcome,
    parts: &'a [Part],
    bytes: &'a [u8],
    /// The highest mark of the tables, if their length is that of their sizes.
    highest: Option<u8>,
}

/// How many inputs the least counts of the sorts are for.
const COUNTED: u64 = 100_000;

/// A name; how many of so many inputs are of the sort at least, which is well below what is drawn, so that it does not fail by chance; and
/// whether an input is of the sort.
type Sort = (&'static str, u64, fn(&Seen) -> bool);

const SORTS: [Sort; 46] = [
    ("READ IS DECLINED", 1_600, |seen| seen.part(|part| part.kind == TESTS[0])),
    ("READ IS NOT DECLINED", 1_500, |seen| seen.part(|part| part.kind == TESTS[1])),
    ("READ, of a number", 880, |seen| seen.part(|part| TESTS.contains(&part.kind) && part.left.tag == CONSTANT)),
    ("READ, of an inner row", 760, |seen| seen.part(|part| TESTS.contains(&part.kind) && (1..=3).contains(&part.left.tag))),
    ("READ of 64 parts", 15, |seen| seen.parts.len() == MOST_PARTS && seen.part(|part| TESTS.contains(&part.kind))),
    ("READ, under NOT", 990, |seen| seen.around(&[NOT])),
    ("READ, in a WHERE", 1_000, |seen| seen.around(&FROMS)),
    ("READ, under a truth test", 800, |seen| seen.around(&TRUTH_TESTS)),
    ("CARD with kind 9", 1_500, |seen| seen.made(DECLINED)),
    ("CARD with kind 10", 1_600, |seen| seen.made(NOT_DECLINED)),
    ("CARD of 190 entries or more, kind 9 or 10", 1, |seen| (seen.made(DECLINED) || seen.made(NOT_DECLINED)) && seen.bytes[0] >= 190),
    ("JUDGE with DECLINED, false", 650, |seen| seen.judged(0)),
    ("JUDGE with DECLINED, unknown", 280, |seen| seen.judged(1)),
    ("JUDGE with DECLINED, true", 790, |seen| seen.judged(2)),
    ("DECLINE, refusal 4", 1, |seen| seen.text_refused(4, b"DECLINE ")),
    ("DECLINEDX, refusal 4", 1, |seen| seen.text_refused(4, b"DECLINEDX ")),
    ("DECLIN ED, refusal 4", 2, |seen| seen.text_refused(4, b"DECLIN ED ")),
    (") IS DECLINED, refusal 6", 69, |seen| seen.text_refused(6, b") IS DECLINED ")),
    (") IS NOT DECLINED, refusal 6", 41, |seen| seen.text_refused(6, b") IS NOT DECLINED ")),
    ("NOT DECLINED without IS, refusal 6", 1, |seen| seen.text_refused(6, b"1 NOT DECLINED ")),
    ("DECLINED, refusal 7", 290, |seen| seen.text_refused(7, b" DECLINED ")),
    ("DECLINED, refusal 8", 310, |seen| seen.text_refused(8, b" DECLINED ")),
    ("DECLINED, refusal 13", 260, |seen| seen.text_refused(13, b" DECLINED ")),
    ("CHECK kind 9, sound", 1_800, |seen| seen.checked(DECLINED, Outcome::Answer(0))),
    ("CHECK kind 10, sound", 1_800, |seen| seen.checked(NOT_DECLINED, Outcome::Answer(0))),
    ("CHECK kind 9, not sound", 1_600, |seen| seen.checked(DECLINED, Outcome::Refusal(9))),
    ("CHECK kind 10, not sound", 1_600, |seen| seen.checked(NOT_DECLINED, Outcome::Refusal(9))),
    ("CHECK kind 11, not sound", 47, |seen| seen.checked(11, Outcome::Refusal(9))),
    ("RUN kind 9, no", 750, |seen| seen.ran(DECLINED, 0)),
    ("RUN kind 9, yes", 560, |seen| seen.ran(DECLINED, 1)),
    ("RUN kind 10, no", 630, |seen| seen.ran(NOT_DECLINED, 0)),
    ("RUN kind 10, yes", 670, |seen| seen.ran(NOT_DECLINED, 1)),
    ("LIST kind 9, some rows", 280, |seen| seen.listed(DECLINED)),
    ("LIST kind 10, some rows", 270, |seen| seen.listed(NOT_DECLINED)),
    ("mark 2 and none above", 37_000, |seen| seen.highest == Some(MARK) && !matches!(seen.outcome, Outcome::Refusal(1 | 2))),
    ("mark 3 and none above, refusal 2", 880, |seen| seen.highest == Some(MARK + 1) && seen.outcome == Outcome::Refusal(2)),
    ("mark 255, refusal 2", 44, |seen| seen.highest == Some(255) && seen.outcome == Outcome::Refusal(2)),
    ("IMPORT of all marks", 840, |seen| seen.imported()),
    ("IMPORT !1, refusal 14", 38, |seen| seen.lines_refused(14, b"!1")),
    ("IMPORT 1!, refusal 14", 42, |seen| seen.lines_refused(14, b"1!")),
    ("IMPORT !!, refusal 14", 82, |seen| seen.lines_refused(14, b"!!")),
    ("IMPORT ! before a space, refusal 14", 14, |seen| seen.lines_refused(14, b"! ")),
    ("IMPORT ! behind a space, refusal 14", 2, |seen| seen.lines_refused(14, b" !")),
    ("IMPORT -!, refusal 14", 47, |seen| seen.lines_refused(14, b"-!")),
    ("IMPORT with !, refusal 15", 93, |seen| seen.lines_refused(15, b"!")),
    ("EXPORT with !", 2_100, |seen| seen.input.call == Call::Export && has(seen.bytes, b"!")),
];

/// Whether bytes stand somewhere in others.
fn has(bytes: &[u8], wanted: &[u8]) -> bool {
    bytes.windows(wanted.len()).any(|window| window == wanted)
}

/// A text with one space on either side of each run of capitals, and no other gap.
fn words_apart(text: &[u8]) -> Vec<u8> {
    let mut apart = vec![b' '];
    for (place, byte) in text.iter().enumerate() {
        let edge = place == 0 || text[place - 1].is_ascii_uppercase() != byte.is_ascii_uppercase();
        if edge && apart.last() != Some(&b' ') {
            apart.push(b' ');
        }
        if !matches!(byte, b' ' | b'\n') {
            apart.push(*byte);
        }
    }
    apart.push(b' ');
    apart
}

/// The marks of a tables file with this many bytes behind its sizes: four of five bytes are values.
fn marks(file: &[u8]) -> Option<&[u8]> {
    let tables = usize::from(*file.first()?);
    let cells = file.get(1 + 3 * tables..)?;
    (cells.len() % 5 == 0).then(|| &cells[cells.len() / 5 * 4..])
}

/// Whether a card, or what is none, has a kind among its kinds.
fn has_kind(card: &[u8], kind: u8) -> bool {
    match card {
        [low, high, tables, rest @ ..] => {
            let count = usize::from(*low) + 256 * usize::from(*high);
            rest.iter().skip((*tables).into()).take(count).any(|seen| *seen == kind)
        }
        _ => false,
    }
}

impl<'a> Seen<'a> {
    /// An input with its outcome, and the parts and bytes that the reference wrote.
    pub fn new(input: &'a Input, outcome: Outcome, parts: &'a [Part], bytes: &'a [u8]) -> Seen<'a> {
        let highest = marks(&input.tables).and_then(|marks| marks.iter().copied().max());
        Seen { input, outcome, parts, bytes, highest }
    }

    /// Whether READ answered such a part.
    fn part(&self, is: impl Fn(&Part) -> bool) -> bool {
        self.input.call == Call::Read && self.parts.iter().any(is)
    }

    /// Whether READ answered one of the two tests within a part of one of these kinds.
    fn around(&self, kinds: &[u8]) -> bool {
        let tested = |at: usize, outer: &Part| self.parts[at..outer.end.into()].iter().any(|part| TESTS.contains(&part.kind));
        self.input.call == Call::Read && self.parts.iter().enumerate().any(|(at, part)| kinds.contains(&part.kind) && tested(at, part))
    }

    /// Whether CARD wrote an entry of this kind.
    fn made(&self, kind: u8) -> bool {
        self.input.call == Call::Card && has_kind(self.bytes, kind)
    }

    /// Whether JUDGE answered so, with the word in the text and a declined cell in the tables.
    fn judged(&self, sort: usize) -> bool {
        let judged = self.input.call == Call::Judge && self.outcome == Outcome::Answer(sort);
        judged && self.highest == Some(MARK) && has(&self.input.text, b"DECLINED")
    }

    /// Whether a text was refused so that has this in it, when one space stands on either side of each run of capitals.
    fn text_refused(&self, number: u32, with: &[u8]) -> bool {
        let text_call = matches!(self.input.call, Call::Read | Call::Judge | Call::Card);
        text_call && self.outcome == Outcome::Refusal(number) && has(&words_apart(&self.input.text), with)
    }

    /// Whether CHECK came out so on a card with this kind.
    fn checked(&self, kind: u8, outcome: Outcome) -> bool {
        self.input.call == Call::Check && self.outcome == outcome && has_kind(&self.input.card, kind)
    }

    /// Whether RUN answered so on a card with this kind, with a declined cell in the tables.
    fn ran(&self, kind: u8, sort: usize) -> bool {
        let ran = self.input.call == Call::Run && self.outcome == Outcome::Answer(sort);
        ran && self.highest == Some(MARK) && has_kind(&self.input.card, kind)
    }

    /// Whether LIST admitted some rows and not others by a card with this kind, with a declined cell in the tables.
    fn listed(&self, kind: u8) -> bool {
        let listed = self.input.call == Call::List && self.outcome == Outcome::Answer(1);
        listed && self.highest == Some(MARK) && has_kind(&self.input.card, kind)
    }

    /// Whether IMPORT wrote cells of all three marks.
    fn imported(&self) -> bool {
        let all = |marks: &[u8]| (0..=MARK).all(|mark| marks.contains(&mark));
        self.input.call == Call::Import && marks(self.bytes).is_some_and(all)
    }

    /// Whether lines with this in them were refused so.
    fn lines_refused(&self, number: u32, with: &[u8]) -> bool {
        self.input.call == Call::Import && self.outcome == Outcome::Refusal(number) && has(&self.input.text, with)
    }
}

/// How often each sort was seen.
pub struct Sorts([u64; SORTS.len()]);

impl Default for Sorts {
    fn default() -> Sorts {
        Sorts([0; SORTS.len()])
    }
}

impl Sorts {
    pub fn count(&mut self, seen: &Seen) {
        for ((_, _, is), count) in SORTS.iter().zip(&mut self.0) {
            *count += u64::from(is(seen));
        }
    }

    pub fn add(&mut self, other: &Sorts) {
        self.0.iter_mut().zip(other.0).for_each(|(count, more)| *count += more);
    }

    pub fn print(&self) {
        println!("{:<43}{:>10}", "sort of input", "inputs");
        for ((name, ..), count) in SORTS.iter().zip(self.0) {
            println!("{name:<43}{count:>10}");
        }
    }

    /// The sorts that too few of so many inputs were of.
    pub fn scarce(&self, total: u64) -> Vec<String> {
        let wanted = |least: u64| (least * total / COUNTED).max(1);
        let scarce = SORTS.iter().zip(self.0).filter(|((_, least, _), count)| *count < wanted(*least));
        scarce.map(|((name, least, _), count)| format!("{name} ({count}, wanted {})", wanted(*least))).collect()
    }
}
