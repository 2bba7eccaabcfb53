//! bench CALL SOURCE TABLES NUMBER: the best time of one call in nanoseconds, by the library and by the reference, taken by turns.
//!
//! CALL is read, card or judge, with a rule's text as SOURCE, or run or list, with a card, or import, with comma lines; or export, which has none. NUMBER is the
//! row that judge and run are asked for, the columns that import is told, or the bytes that export is lent. A call is timed whole, with the checks of its
//! input. Both sides have to give the same answer first.
use roskudla::{ffi, Refusal, MOST_CARD_BYTES, MOST_PARTS, MOST_ROWS, MOST_TABLE_BYTES};
use std::fmt::Debug;
use std::hint::black_box;
use std::time::{Duration, Instant};
use std::{arch, env, fs, process};

/// At least so many turns, and until so much time has passed: the best of many short turns is what the code takes when nothing disturbs it.
const LEAST_TURNS: usize = 5;
const ALL_TURNS: Duration = Duration::from_millis(150);
/// How long a turn takes, unless one call takes longer.
const TURN: Duration = Duration::from_millis(2);
/// Calls that take longer than this are made no second time.
const LONG: Duration = Duration::from_secs(1);

/// Moves all code behind it, the library's and the reference's: where code lies against cache lines makes a difference to both. BENCH_PADDING says by how much.
#[inline(never)]
fn padding() {
    unsafe { arch::asm!(concat!(".skip ", env!("BENCH_PADDING"))) }
}

/// The nanoseconds of one of so many calls.
fn time<A>(call: &mut impl FnMut() -> A, times: u32) -> f64 {
    let start = Instant::now();
    for _ in 0..times {
        black_box(call());
    }
    start.elapsed().as_nanos() as f64 / f64::from(times)
}

/// Prints the best times of the library and of the reference over the turns.
fn show_times<A, B>(mut library: impl FnMut() -> A, mut reference: impl FnMut() -> B) {
    let mut best = (time(&mut library, 1), time(&mut reference, 1));
    let once = best.0.max(best.1);
    let times = ((TURN.as_nanos() as f64 / once) as u32).max(1);
    let start = Instant::now();
    let mut turns = 0;
    while once < LONG.as_nanos() as f64 && (turns < LEAST_TURNS || start.elapsed() < ALL_TURNS) {
        best = (best.0.min(time(&mut library, times)), best.1.min(time(&mut reference, times)));
        turns += 1;
    }
    println!("{:.1} {:.1}", best.0, best.1);
}

/// Ends the program unless both sides answer the same: the library's refusals and parts have types of their own, which are written like the reference's.
fn demand_same<A: Debug, B: Debug>(library: Result<A, Refusal>, reference: Result<B, reference::Refusal>) {
    let (got, wanted) = (format!("{:?}", library.map_err(|refusal| refusal.0)), format!("{reference:?}"));
    if got != wanted {
        eprintln!("the library answers {got}, the reference {wanted}");
        process::exit(1);
    }
}

fn show_read(text: &[u8], tables: &[u8]) {
    let (mut parts, mut others) = ([roskudla::Part::default(); MOST_PARTS], [reference::Part::default(); MOST_PARTS]);
    let (count, wanted) = (roskudla::read(text, tables, &mut parts), reference::read(text, tables, &mut others));
    demand_same(count.map(|count| &parts[..count]), wanted.map(|count| &others[..count]));
    show_times(|| roskudla::read(text, tables, &mut parts), || reference::read(text, tables, &mut others));
}

fn show_card(text: &[u8], tables: &[u8]) {
    let (mut card, mut other) = ([0; MOST_CARD_BYTES], [0; MOST_CARD_BYTES]);
    let (length, wanted) = (roskudla::card(text, tables, &mut card), reference::card(text, tables, &mut other));
    demand_same(length.map(|length| &card[..length]), wanted.map(|length| &other[..length]));
    show_times(|| roskudla::card(text, tables, &mut card), || reference::card(text, tables, &mut other));
}

fn show_list(card: &[u8], tables: &[u8]) {
    let (mut rows, mut others) = ([0; MOST_ROWS], [0; MOST_ROWS]);
    let (count, wanted) = (roskudla::list(card, tables, &mut rows), reference::list(card, tables, &mut others));
    demand_same(count.map(|count| &rows[..count]), wanted.map(|count| &others[..count]));
    show_times(|| roskudla::list(card, tables, &mut rows), || reference::list(card, tables, &mut others));
}

fn show_run(card: &[u8], tables: &[u8], row: usize) {
    demand_same(roskudla::run(card, tables, row), reference::run(card, tables, row));
    show_times(|| roskudla::run(card, tables, row), || reference::run(card, tables, row));
}

fn show_judge(text: &[u8], tables: &[u8], row: usize) {
    demand_same(roskudla::judge(text, tables, row), reference::judge(text, tables, row));
    show_times(|| roskudla::judge(text, tables, row), || reference::judge(text, tables, row));
}

/// IMPORT or EXPORT of the library, with the buffer that it is lent: its wrapper makes one for each call, and the reference makes none.
fn lent(call: impl Fn(*mut u8, usize, *mut usize) -> u32, buffer: &mut [u8]) -> Result<usize, Refusal> {
    let mut length = 0;
    match call(buffer.as_mut_ptr(), buffer.len(), &mut length) {
        0 => Ok(length),
        number => Err(Refusal(number)),
    }
}

fn show_import(lines: &[u8], columns: usize) {
    let (mut tables, mut others) = ([0; MOST_TABLE_BYTES], [0; MOST_TABLE_BYTES]);
    // sound: `lent` hands on a buffer and a number that nothing else reaches, and the lines have the length beside them
    let call = |buffer, room, length| unsafe { ffi::roskudla_import(lines.as_ptr(), lines.len(), columns, buffer, room, length) };
    let (length, wanted) = (lent(call, &mut tables), reference::import(lines, columns, &mut others));
    demand_same(length.map(|length| &tables[..length]), wanted.map(|length| &others[..length]));
    show_times(|| lent(call, &mut tables), || reference::import(lines, columns, &mut others));
}

fn show_export(tables: &[u8], room: usize) {
    let (mut lines, mut others) = (vec![0; room], vec![0; room]);
    // sound: as above
    let call = |buffer, room, length| unsafe { ffi::roskudla_export(tables.as_ptr(), tables.len(), buffer, room, length) };
    let (length, wanted) = (lent(call, &mut lines), reference::export(tables, &mut others));
    demand_same(length.map(|length| &lines[..length]), wanted.map(|length| &others[..length]));
    show_times(|| lent(call, &mut lines), || reference::export(tables, &mut others));
}

fn usage() -> ! {
    eprintln!("bench CALL SOURCE TABLES NUMBER");
    process::exit(2)
}

fn main() {
    let words: Vec<String> = env::args().collect();
    if words.is_empty() {
        padding();
    }
    let [_, name, source, tables, number] = &words[..] else { usage() };
    let source = fs::read(source).expect("the file of a text, a card or comma lines");
    let tables = fs::read(tables).expect("a tables file");
    let number = number.parse().expect("a row, a number of columns or a length");
    match &name[..] {
        "read" => show_read(&source, &tables),
        "card" => show_card(&source, &tables),
        "judge" => show_judge(&source, &tables, number),
        "run" => show_run(&source, &tables, number),
        "list" => show_list(&source, &tables),
        "import" => show_import(&source, number),
        "export" => show_export(&tables, number),
        _ => usage(),
    }
}
