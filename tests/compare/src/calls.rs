//! Calling both sides with one input, and comparing everything that the paper says of what they leave behind.

use crate::inputs::{rows_of_first, Call, Input};
use crate::outcomes::{possible, Outcome};
use crate::sorts::Seen;
use roskudla::ffi;

/// Bytes of pattern on each side of a buffer. What the library writes beside a buffer shows there.
const GUARD: usize = 64;

/// A buffer that the library is given, in the midst of a larger one. Around it stands a pattern, which must stay.
#[derive(Default)]
struct Guarded {
    store: Vec<u64>,
    start: usize,
    length: usize,
    salt: u8,
}

impl Guarded {
    /// The pattern at a place: it changes from byte to byte, so that bytes written one place off show too.
    fn pattern(&self, place: usize) -> u8 {
        (place as u8).wrapping_mul(151).wrapping_add(self.salt)
    }

    fn all(&self) -> &[u8] {
        // sound: any eight bytes are a u64 and the other way round, and the slice covers exactly the store
        unsafe { std::slice::from_raw_parts(self.store.as_ptr().cast(), 8 * self.store.len()) }
    }

    fn all_mut(&mut self) -> &mut [u8] {
        // sound: as above, and the store is borrowed for as long
        unsafe { std::slice::from_raw_parts_mut(self.store.as_mut_ptr().cast(), 8 * self.store.len()) }
    }

    /// Makes room for so many bytes, a shift past a multiple of eight.
    fn place(&mut self, length: usize, shift: usize, salt: u8) {
        let words = (2 * GUARD + shift + length).div_ceil(8);
        if self.store.len() < words {
            self.store.resize(words, 0);
        }
        (self.start, self.length, self.salt) = (GUARD + shift, length, salt);
    }

    /// A buffer to be written, full of the pattern.
    fn lend(&mut self, length: usize, shift: usize, salt: u8) {
        self.place(length, shift, salt);
        self.fill(0, self.start + length + GUARD);
    }

    /// A buffer to be read, with these bytes.
    fn give(&mut self, bytes: &[u8], shift: usize, salt: u8) {
        self.place(bytes.len(), shift, salt);
        let (start, end) = (self.start, self.start + bytes.len());
        self.fill(0, start);
        self.all_mut()[start..end].copy_from_slice(bytes);
        self.fill(end, end + GUARD);
    }

    fn fill(&mut self, from: usize, to: usize) {
        let salt = self.salt;
        let bytes = &mut self.all_mut()[from..to];
        bytes.iter_mut().enumerate().for_each(|(place, byte)| *byte = ((from + place) as u8).wrapping_mul(151).wrapping_add(salt));
    }

    /// Whether the pattern stands at these places.
    fn untouched(&self, from: usize, to: usize) -> bool {
        self.all()[from..to].iter().enumerate().all(|(place, byte)| *byte == self.pattern(from + place))
    }

    /// Whether the buffer holds the pattern at so many places of its own.
    fn untouched_at(&self, place: usize, count: usize) -> bool {
        self.untouched(self.start + place, self.start + place + count)
    }

    /// Whether the buffer holds the pattern from a place of its own on.
    fn untouched_from(&self, place: usize) -> bool {
        self.untouched(self.start + place, self.start + self.length)
    }

    fn guards_stand(&self) -> bool {
        let end = self.start + self.length;
        self.untouched(0, self.start) && self.untouched(end, end + GUARD)
    }

    fn inside(&self) -> &[u8] {
        &self.all()[self.start..self.start + self.length]
    }

    fn pointer(&mut self) -> *mut u8 {
        let start = self.start;
        self.all_mut()[start..].as_mut_ptr()
    }

    /// The buffer as elements of a type that any bytes are a value of, copied out.
    fn elements<T: Copy>(&self) -> Vec<T> {
        let size = std::mem::size_of::<T>();
        let bytes = self.inside();
        // sound: each element lies within the bytes, and every caller's type takes any bytes
        (0..bytes.len() / size).map(|place| unsafe { bytes.as_ptr().add(size * place).cast::<T>().read_unaligned() }).collect()
    }
}

/// Room for both sides' answers, used again for every input.
#[derive(Default)]
pub struct Space {
    text: Guarded,
    tables: Guarded,
    card: Guarded,
    lent: Guarded,
    answer: Guarded,
    /// What the library returned: 0 or a refusal.
    status: u32,
    /// What the reference answered: a number, or a refusal; and its lent buffers.
    expected: Option<Result<u64, u32>>,
    parts: Vec<reference::Part>,
    bytes: Vec<u8>,
    rows: Vec<u32>,
}

/// A part's fields, whichever side it is of.
type Fields = [i64; 8];

fn library_fields(part: &ffi::Part) -> Fields {
    let ffi::Part { kind, comparison, table, end, left, right } = *part;
    [kind.into(), comparison.into(), table.into(), end.into(), left.tag.into(), left.number.into(), right.tag.into(), right.number.into()]
}

fn reference_fields(part: &reference::Part) -> Fields {
    let reference::Part { kind, comparison, table, end, left, right } = *part;
    [kind.into(), comparison.into(), table.into(), end.into(), left.tag.into(), left.number.into(), right.tag.into(), right.number.into()]
}

/// The library's part as one of the reference's, so that both sides' buffers hold the same before the call.
fn same_part(part: &ffi::Part) -> reference::Part {
    let value = |value: ffi::Value| reference::Value { tag: value.tag, number: value.number };
    let ffi::Part { kind, comparison, table, end, left, right } = *part;
    reference::Part { kind, comparison, table, end, left: value(left), right: value(right) }
}

/// The bytes of one element of the lent buffer.
fn element_size(call: Call) -> usize {
    match call {
        Call::Read => std::mem::size_of::<ffi::Part>(),
        Call::List => 4,
        _ => 1,
    }
}

/// The bytes that the pointed-to answer takes.
fn answer_size(call: Call) -> usize {
    if matches!(call, Call::Judge | Call::Run) {
        1
    } else {
        std::mem::size_of::<usize>()
    }
}

impl Space {
    /// Gives an input to both sides and compares. An error says what differs.
    pub fn compare(&mut self, input: &Input) -> Result<Outcome, String> {
        self.prepare(input);
        self.status = self.call_library(input);
        self.expected = None;
        self.expected = Some(self.call_reference(input));
        self.verify(input)
    }

    fn prepare(&mut self, input: &Input) {
        let Input { shift, salt, .. } = *input;
        self.text.give(&input.text, shift, salt);
        self.tables.give(&input.tables, shift, salt);
        self.card.give(&input.card, shift, salt);
        // parts and row numbers stand at multiples of four, a count at one of eight, and bytes anywhere
        let lent_shift = if element_size(input.call) == 1 { shift } else { shift / 4 * 4 };
        self.lent.lend(input.lent * element_size(input.call), lent_shift, salt);
        self.answer.lend(answer_size(input.call), 0, salt);
        match input.call {
            Call::Read => self.parts = self.lent.elements().iter().map(same_part).collect(),
            Call::Card | Call::Import | Call::Export => self.bytes = self.lent.inside().to_vec(),
            Call::List => self.rows = self.lent.elements(),
            _ => {}
        }
    }

    fn call_library(&mut self, input: &Input) -> u32 {
        let (text, text_len) = (self.text.pointer(), input.text.len());
        let (tables, tables_len) = (self.tables.pointer(), input.tables.len());
        let (card, card_len) = (self.card.pointer(), input.card.len());
        let (lent, lent_len) = (self.lent.pointer(), input.lent);
        let answer = self.answer.pointer();
        // sound: every pointer is to a buffer of the length beside it, none overlap, and those to be written are aligned
        unsafe {
            match input.call {
                Call::Read => ffi::roskudla_read(text, text_len, tables, tables_len, lent.cast(), lent_len, answer.cast()),
                Call::Judge => ffi::roskudla_judge(text, text_len, tables, tables_len, input.row, answer),
                Call::Card => ffi::roskudla_card(text, text_len, tables, tables_len, lent, lent_len, answer.cast()),
                Call::Check => ffi::roskudla_check(card, card_len),
                Call::Run => ffi::roskudla_run(card, card_len, tables, tables_len, input.row, answer),
                Call::List => ffi::roskudla_list(card, card_len, tables, tables_len, lent.cast(), lent_len, answer.cast()),
                Call::Import => ffi::roskudla_import(text, text_len, input.columns, lent, lent_len, answer.cast()),
                Call::Export => ffi::roskudla_export(tables, tables_len, lent, lent_len, answer.cast()),
            }
        }
    }

    /// The reference's answer as a number, or its refusal.
    fn call_reference(&mut self, input: &Input) -> Result<u64, u32> {
        let Input { text, tables, card, row, columns, .. } = input;
        match input.call {
            Call::Read => reference::read(text, tables, &mut self.parts).map(|count| count as u64),
            Call::Judge => reference::judge(text, tables, *row).map(|truth| match truth {
                reference::Truth::False => 0,
                reference::Truth::Unknown => 1,
                reference::Truth::True => 2,
            }),
            Call::Card => reference::card(text, tables, &mut self.bytes).map(|length| length as u64),
            Call::Check => reference::check(card).map(|()| 0),
            Call::Run => reference::run(card, tables, *row).map(u64::from),
            Call::List => reference::list(card, tables, &mut self.rows).map(|count| count as u64),
            Call::Import => reference::import(text, *columns, &mut self.bytes).map(|length| length as u64),
            Call::Export => reference::export(tables, &mut self.bytes).map(|length| length as u64),
        }
    }

    fn verify(&self, input: &Input) -> Result<Outcome, String> {
        self.verify_given(input)?;
        let expected = self.expected.expect("the reference was called");
        let status = expected.err().unwrap_or(0);
        if self.status != status || expected == Err(0) {
            return Err(format!("the library returns {}, the reference {}", self.status, status));
        }
        self.verify_answer(input, expected)?;
        self.verify_lent(input, expected)?;
        let outcome = match expected {
            Ok(answer) => Outcome::Answer(sort(input, answer)),
            Err(number) => Outcome::Refusal(number),
        };
        if possible(input.call, outcome) {
            Ok(outcome)
        } else {
            Err("an outcome that the call cannot have".into())
        }
    }

    /// What the sorts of input are told by: the input and its outcome, and what the reference wrote.
    pub fn seen<'a>(&'a self, input: &'a Input, outcome: Outcome) -> Seen<'a> {
        let written = self.expected.and_then(Result::ok).unwrap_or(0) as usize;
        match input.call {
            Call::Read => Seen::new(input, outcome, &self.parts[..written], &[]),
            Call::Card | Call::Import | Call::Export => Seen::new(input, outcome, &[], &self.bytes[..written]),
            _ => Seen::new(input, outcome, &[], &[]),
        }
    }

    /// What was given to be read has not changed, and nothing beside any buffer has.
    fn verify_given(&self, input: &Input) -> Result<(), String> {
        let given = [("text", &self.text, &input.text), ("tables", &self.tables, &input.tables), ("card", &self.card, &input.card)];
        for (name, buffer, bytes) in given {
            if buffer.inside() != bytes {
                return Err(format!("the library changed the {name}"));
            }
        }
        let guarded = [&self.text, &self.tables, &self.card, &self.lent, &self.answer];
        let names = ["text", "tables", "card", "lent buffer", "pointed-to answer"];
        match guarded.iter().zip(names).find(|(buffer, _)| !buffer.guards_stand()) {
            Some((_, name)) => Err(format!("the library wrote beside the {name}")),
            None => Ok(()),
        }
    }

    /// The pointed-to answer: the reference's, or what stood there before where there is none.
    fn verify_answer(&self, input: &Input, expected: Result<u64, u32>) -> Result<(), String> {
        match expected {
            Ok(answer) if input.call != Call::Check => {
                let seen = self.library_answer();
                if seen == answer {
                    Ok(())
                } else {
                    Err(format!("the library answers {seen}, the reference {answer}"))
                }
            }
            _ if self.answer.untouched_from(0) => Ok(()),
            _ => Err("the library wrote an answer where there is none".into()),
        }
    }

    fn library_answer(&self) -> u64 {
        self.answer.inside().iter().rev().fold(0, |number, byte| 256 * number + u64::from(*byte))
    }

    /// The lent buffer: as the reference's in every element, and byte for byte as before past the answer.
    fn verify_lent(&self, input: &Input, expected: Result<u64, u32>) -> Result<(), String> {
        let written = match (input.call, expected) {
            (Call::Judge | Call::Check | Call::Run, _) | (_, Err(_)) => 0,
            (_, Ok(count)) => count as usize,
        };
        if written > input.lent {
            return Err("the answer is longer than the lent buffer".into());
        }
        let same = match input.call {
            Call::Read => self.lent.elements().iter().map(library_fields).eq(self.parts.iter().map(reference_fields)),
            Call::Card | Call::Import | Call::Export => self.lent.inside() == self.bytes,
            Call::List => self.lent.elements::<u32>() == self.rows,
            _ => true,
        };
        if !same {
            return Err("the lent buffers differ".into());
        }
        if !self.lent.untouched_from(written * element_size(input.call)) {
            return Err("the library wrote past its answer".into());
        }
        Ok(())
    }

    /// Both sides' answers, after a comparison. Of the lent buffers it shows what either side wrote, and where they differ.
    pub fn describe(&self, input: &Input) -> String {
        let mut lines = vec![format!("library:   status {}, pointed-to {}", self.status, hex(self.answer.inside()))];
        lines.push(match self.expected {
            Some(Ok(answer)) => format!("reference: status 0, answer {answer}"),
            Some(Err(number)) => format!("reference: status {number}"),
            None => "reference: it came to no answer".into(),
        });
        let (library, reference) = self.lent_elements(input);
        let size = element_size(input.call);
        let same = |place: usize| library[place] == reference[place] && self.lent.untouched_at(size * place, size);
        let shown = (0..library.len()).rev().find(|place| !same(*place)).map_or(0, |place| place + 1);
        lines.push(format!("library's buffer:   {}", library[..shown].join(" ")));
        lines.push(format!("reference's buffer: {}", reference[..shown].join(" ")));
        lines.push(format!("and {} elements as before", library.len() - shown));
        lines.join("\n")
    }

    /// The elements of both sides' lent buffers, written out.
    fn lent_elements(&self, input: &Input) -> (Vec<String>, Vec<String>) {
        let fields = |fields: Fields| format!("\n  {fields:?}");
        match input.call {
            Call::Read => {
                let library = self.lent.elements().iter().map(|part| fields(library_fields(part))).collect();
                (library, self.parts.iter().map(|part| fields(reference_fields(part))).collect())
            }
            Call::Card | Call::Import | Call::Export => {
                let library = self.lent.inside().iter().map(|byte| hex(&[*byte])).collect();
                (library, self.bytes.iter().map(|byte| hex(&[*byte])).collect())
            }
            Call::List => {
                let library = self.lent.elements::<u32>().iter().map(u32::to_string).collect();
                (library, self.rows.iter().map(u32::to_string).collect())
            }
            _ => (Vec::new(), Vec::new()),
        }
    }
}

/// The sort of an answer, as outcomes are counted.
fn sort(input: &Input, answer: u64) -> usize {
    match input.call {
        Call::Judge | Call::Run => answer as usize,
        Call::List if answer == 0 => 0,
        Call::List if (answer as usize) < rows_of_first(&input.tables) => 1,
        Call::List => 2,
        // a tables file without rows has its sizes alone
        Call::Import => usize::from(answer > 4),
        Call::Export => usize::from(answer > 0),
        _ => 0,
    }
}

pub fn hex(bytes: &[u8]) -> String {
    bytes.iter().map(|byte| format!("{byte:02X}")).collect::<Vec<_>>().join(" ")
}

/// An input in full.
pub fn printed(input: &Input) -> String {
    let mut lines = vec![format!("call:   {:?}", input.call)];
    match input.call {
        Call::Read | Call::Judge | Call::Card => lines.push(format!("text:   \"{}\"", input.text.escape_ascii())),
        Call::Check | Call::Run | Call::List => lines.push(format!("card:   {}", hex(&input.card))),
        Call::Import => lines.push(format!("lines:  \"{}\"\ncolumns: {}", input.text.escape_ascii(), input.columns)),
        Call::Export => {}
    }
    if !matches!(input.call, Call::Check | Call::Import) {
        lines.push(format!("tables: {}", hex(&input.tables)));
    }
    match input.call {
        Call::Judge | Call::Run => lines.push(format!("row:    {}", input.row)),
        Call::Check => {}
        _ => lines.push(format!("lent:   {} elements", input.lent)),
    }
    lines.join("\n")
}
