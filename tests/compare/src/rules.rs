//! Drawing of rules from the grammar, as tokens: of so many parts, or with so many entries on their card.

use crate::draw::Draw;
use crate::limits::{MOST_OPEN, MOST_PARTS};
use crate::tables::{self, Size};
use crate::tokens::{self, Token, SIGNS};

/// What keeps a drawn rule in its bounds.
#[derive(Clone, Copy)]
pub struct Bounds {
    /// How often a rule's parts may be evaluated for one answer, together: the product of the rows around each part, and of 2 for
    /// each IS UNKNOWN and IS NOT UNKNOWN around it, as a card has what these test twice.
    pub steps: usize,
    /// How many rows are judged for one answer.
    pub judged: usize,
    /// How many FROMs may stand around one another.
    pub froms: usize,
}

/// Draws one rule.
struct Maker<'a> {
    draw: &'a mut Draw,
    sizes: &'a [Size],
    bounds: Bounds,
    tokens: Vec<Token>,
    /// Letters and the places of their tables, the innermost last.
    scope: Vec<(u8, usize)>,
    /// Brackets that stand open.
    open: usize,
    /// Evaluations of a part that stands here.
    steps: usize,
    /// How often a card has the entries of a part that stands here.
    copies: usize,
    /// What a condition's parts, times their copies, may come to where it is tested by IS UNKNOWN or IS NOT UNKNOWN.
    entries: usize,
    /// How often, in a hundred, a NOT, needless brackets, a FROM and a truth test are drawn.
    nots: usize,
    brackets: usize,
    froms: usize,
    truths: usize,
}

/// A number of parts, mostly small, at most as many as a rule has.
pub fn part_count(draw: &mut Draw) -> usize {
    match draw.weighted(&[25, 42, 23, 7, 3]) {
        0 => draw.between(1, 3),
        1 => draw.between(4, 8),
        2 => draw.between(9, 20),
        3 => draw.between(21, 55),
        _ => draw.between(MOST_PARTS - 8, MOST_PARTS),
    }
}

/// The tokens of a rule of exactly so many parts, for tables of these sizes.
pub fn rule(draw: &mut Draw, sizes: &[Size], parts: usize, bounds: Bounds) -> Vec<Token> {
    let mut maker = Maker::new(draw, sizes, bounds);
    maker.condition(parts);
    maker.tokens
}

/// The tokens of a rule whose card would have this many entries, mostly by IS UNKNOWN and IS NOT UNKNOWN around one another. It has
/// a few fewer where the sum asks for a FROM that cannot stand.
pub fn rule_of_sum(draw: &mut Draw, sizes: &[Size], sum: usize, bounds: Bounds) -> Vec<Token> {
    let mut maker = Maker::new(draw, sizes, bounds);
    maker.of_sum(sum);
    maker.tokens
}

impl<'a> Maker<'a> {
    fn new(draw: &'a mut Draw, sizes: &'a [Size], bounds: Bounds) -> Maker<'a> {
        let (nots, brackets, entries) = (draw.pick(&[3, 10, 25, 60]), draw.pick(&[0, 5, 15, 50]), draw.pick(&[20, 60, 120, 300, 900]));
        // where a table has many rows a rule has few parts, and most of these rules are to go through them
        let tall = tables::is_tall(sizes) && draw.percent(60);
        let (froms, truths) = if tall { (95, 0) } else { (draw.pick(&[0, 50, 70, 85, 95]), draw.pick(&[0, 15, 30, 60])) };
        let (tokens, scope, steps) = (Vec::with_capacity(64), vec![(b'm', 0)], bounds.judged.max(1));
        Maker { draw, sizes, bounds, tokens, scope, open: 0, steps, copies: 1, entries, nots, brackets, froms, truths }
    }
}

impl Maker<'_> {
    fn push(&mut self, written: &str) {
        self.tokens.push(Token::new(written));
    }

    fn push_all(&mut self, written: &[&str]) {
        self.tokens.extend(written.iter().map(|token| Token::new(token)));
    }

    fn open(&mut self) {
        self.push("(");
        self.open += 1;
    }

    fn close(&mut self) {
        self.push(")");
        self.open -= 1;
    }

    fn condition(&mut self, parts: usize) {
        self.joined("OR", parts, Self::conjunction);
    }

    fn conjunction(&mut self, parts: usize) {
        self.joined("AND", parts, Self::factor);
    }

    /// Inner ones joined by a word, which is a part each time.
    fn joined(&mut self, word: &str, parts: usize, inner: fn(&mut Self, usize)) {
        let most = parts.div_ceil(2);
        let count = match self.draw.weighted(&[45, 35, 15, 5]) {
            0 => 1,
            1 => most.min(2),
            2 => most.min(3),
            _ => self.draw.between(1, most),
        };
        let mut rest = parts - (count - 1);
        for left in (1..=count).rev() {
            let share = if left == 1 { rest } else { self.draw.between(1, rest - left + 1) };
            inner(self, share);
            rest -= share;
            if left > 1 {
                self.push(word);
            }
        }
    }

    /// A NOT needs no bracket: where no more brackets can be opened, NOTs alone take up the parts.
    fn factor(&mut self, parts: usize) {
        let full = self.open == MOST_OPEN;
        if parts > 1 && (full || self.draw.percent(self.nots) || (parts == 2 && self.draw.percent(20))) {
            self.push("NOT");
            self.factor(parts - 1);
        } else {
            self.test(parts);
        }
    }

    fn test(&mut self, parts: usize) {
        if parts == 1 && (self.open == MOST_OPEN || !self.draw.percent(self.brackets)) {
            self.plain_test();
        } else if parts > 1 && self.draw.percent(self.truths) {
            let twice = self.draw.percent(45) && self.fits_twice(parts - 1);
            self.truth_test(twice, |maker| maker.condition(parts - 1));
        } else if let Some(table) = self.source(parts) {
            let exists = self.draw.percent(35);
            self.subquery(table, exists, |maker| maker.condition(parts - 1));
        } else {
            self.open();
            self.condition(parts);
            self.close();
        }
    }

    /// Whether so many parts may stand here twice.
    fn fits_twice(&self, parts: usize) -> bool {
        2 * self.copies * parts <= self.entries && 2 * self.steps * parts <= self.bounds.steps
    }

    /// A truth test of what is drawn inside. `twice`: whether it is one that uses that twice.
    fn truth_test(&mut self, twice: bool, inside: impl FnOnce(&mut Self)) {
        let (steps, copies) = (self.steps, self.copies);
        if twice {
            (self.steps, self.copies) = (2 * steps, 2 * copies);
        }
        self.open();
        inside(self);
        self.close();
        (self.steps, self.copies) = (steps, copies);
        self.push("IS");
        if self.draw.percent(50) {
            self.push("NOT");
        }
        let word = if twice { "UNKNOWN" } else { self.draw.pick(&["TRUE", "FALSE"]) };
        self.push(word);
    }

    /// A test without an inner condition.
    fn plain_test(&mut self) {
        self.value();
        match self.draw.weighted(&[64, 9, 9, 9, 9]) {
            0 => {
                let sign = self.draw.pick(&SIGNS);
                self.push(sign);
                self.value();
            }
            1 => self.push_all(&["IS", "NULL"]),
            2 => self.push_all(&["IS", "NOT", "NULL"]),
            3 => self.push_all(&["IS", "DECLINED"]),
            _ => self.push_all(&["IS", "NOT", "DECLINED"]),
        }
    }

    /// The place of a table for a FROM, if one is to stand here, and can, and is not too long to go through.
    fn source(&mut self, parts: usize) -> Option<usize> {
        if parts > 1 && self.draw.percent(self.froms) {
            self.possible_source(parts)
        } else {
            None
        }
    }

    /// The place of a table for a FROM, if one can stand here around so many parts or entries and is not too long to go through.
    fn possible_source(&mut self, count: usize) -> Option<usize> {
        if self.scope.len() > self.bounds.froms {
            return None;
        }
        let table = self.draw.below(self.sizes.len());
        let steps = self.steps * self.sizes[table].rows.max(1);
        (steps * count <= self.bounds.steps).then_some(table)
    }

    /// EXISTS, or a list with what stands before it, around what is drawn inside. The value before a list is drawn outside it.
    fn subquery(&mut self, table: usize, exists: bool, inside: impl FnOnce(&mut Self)) {
        if exists {
            self.push("EXISTS");
        } else {
            self.value();
            self.before_list();
        }
        self.open();
        let select_at = self.tokens.len();
        let letter = self.draw.pick(b"mmmvvvwxaz");
        self.from(table, letter);
        let steps = self.steps;
        self.steps *= self.sizes[table].rows.max(1);
        self.scope.push((letter, table));
        if !exists {
            self.select(select_at);
        }
        inside(self);
        self.scope.pop();
        self.steps = steps;
        self.close();
    }

    fn from(&mut self, table: usize, letter: u8) {
        self.push("FROM");
        let width = if self.draw.percent(3) { 2 } else { 1 };
        self.tokens.push(Token::number(table as i64 + 1, width));
        self.tokens.push(Token::letter(letter));
        self.push("WHERE");
    }

    /// SELECT stands before FROM, and yet sees the letter that FROM binds.
    fn select(&mut self, at: usize) {
        let from = self.tokens.split_off(at);
        self.push("SELECT");
        self.value();
        self.tokens.extend(from);
    }

    fn before_list(&mut self) {
        match self.draw.below(6) {
            0 => self.push("IN"),
            1 => self.push_all(&["NOT", "IN"]),
            form => {
                let sign = self.draw.pick(&SIGNS);
                self.push(sign);
                self.push(if form < 4 { "SOME" } else { "ALL" });
            }
        }
    }

    fn value(&mut self) {
        if self.draw.percent(25) {
            let number = tokens::number(self.draw);
            self.tokens.push(number);
        } else {
            self.column();
        }
    }

    /// A column of the nearest binding of some letter in scope.
    fn column(&mut self) {
        let innermost = self.scope.len() - 1;
        let place = if self.draw.percent(50) { innermost } else { self.draw.below(innermost + 1) };
        let letter = self.scope[place].0;
        let table = self.scope.iter().rev().find(|(bound, _)| *bound == letter).expect("it is in scope").1;
        let column = self.draw.between(1, self.sizes[table].columns);
        let width = if self.draw.percent(3) { self.draw.between(2, 10) } else { 1 };
        self.tokens.push(Token::letter(letter));
        self.push(".");
        self.tokens.push(Token::number(column as i64, width));
    }
    /// A factor whose entries come to a sum. Without a FROM sums are odd.
    fn of_sum(&mut self, sum: usize) {
        if sum < 2 || self.open == MOST_OPEN {
            return self.plain_test();
        }
        let odd = sum % 2 == 1;
        match self.draw.weighted(&[8, 8, 84]) {
            0 => {
                self.push("NOT");
                self.of_sum(sum);
            }
            1 => self.truth_test(false, |maker| maker.of_sum(sum)),
            _ if odd && self.draw.percent(75) => self.truth_test(true, |maker| maker.of_sum(sum / 2)),
            _ => match self.possible_source(sum) {
                Some(table) if !odd || self.draw.percent(25) => {
                    let exists = sum < 4 || self.draw.percent(50);
                    let own = if exists { 1 } else { 3 };
                    self.subquery(table, exists, |maker| maker.of_sum(sum - own));
                }
                _ => self.pair_of_sum(sum),
            },
        }
    }

    /// Two factors in brackets with a word between them, which has an entry too.
    fn pair_of_sum(&mut self, sum: usize) {
        if sum < 3 {
            return self.plain_test();
        }
        let odd = 1 + 2 * self.draw.below((sum - 1) / 2);
        let (first, second) = if self.draw.percent(50) { (odd, sum - 1 - odd) } else { (sum - 1 - odd, odd) };
        self.open();
        self.of_sum(first);
        let word = self.draw.pick(&["AND", "OR"]);
        self.push(word);
        self.of_sum(second);
        self.close();
    }
}
