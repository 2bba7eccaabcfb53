//! The grammar (section "Rule text", the list of forms; document 02, Point 1, for truth tests, and Point 4, for declined
//! values): tokens to a tree, before any limit or name is looked at.

use crate::comparison::{EQUAL, NOT_EQUAL};
use crate::part::{ALL, AND, OR, SOME};
use crate::part::{IS_DECLINED, IS_NOT_DECLINED, IS_NOT_NULL, IS_NULL};
use crate::part::{IS_FALSE, IS_NOT_FALSE, IS_NOT_TRUE, IS_NOT_UNKNOWN, IS_TRUE, IS_UNKNOWN};
use crate::refusal::{self, Refusal};
use crate::text::{Token, Word};

/// The place of a node in its tree.
pub type Place = usize;

/// A value as written.
#[derive(Clone, Copy, Debug)]
pub enum Written {
    /// A number.
    Number(i32),
    /// letter `.` number
    Column { letter: u8, column: i32 },
}

/// FROM number letter WHERE condition.
#[derive(Clone, Copy, Debug)]
pub struct Subquery {
    pub table: i32,
    pub letter: u8,
    pub condition: Place,
}

/// A value compared with a list.
#[derive(Clone, Copy, Debug)]
pub struct List {
    /// The kind of the part: 8 for SOME and IN, 9 for ALL and NOT IN.
    pub kind: u8,
    pub comparison: u8,
    pub left: Written,
    pub selected: Written,
    pub subquery: Subquery,
}

/// An OR, an AND, a NOT or a test, as written. Brackets leave no node.
#[derive(Clone, Copy, Debug)]
pub enum Node {
    /// An AND or an OR: the kind of the part, then both sides.
    Joined(u8, Place, Place),
    /// A NOT.
    Not(Place),
    /// The number of the comparison, then both sides.
    Comparison(u8, Written, Written),
    /// IS NULL, IS NOT NULL, IS DECLINED or IS NOT DECLINED: the kind of the part, then the value.
    Mark(u8, Written),
    /// An EXISTS.
    Exists(Subquery),
    /// SOME, ALL, IN or NOT IN.
    List(List),
    /// A truth test: the kind of the part, then the bracketed condition.
    Truth(u8, Place),
}

/// A whole condition.
#[derive(Debug)]
pub struct Tree {
    /// One node for each part of the rule, inner ones first.
    pub nodes: Vec<Node>,
    /// The place of the outermost node.
    pub root: Place,
    /// The most FROMs around one another.
    pub most_froms: usize,
    /// Whether some IS UNKNOWN or IS NOT UNKNOWN uses its inner condition twice.
    pub uses_twice: bool,
}

/// Reads all tokens as one condition, or gives refusal 6.
pub fn tree(tokens: &[Token]) -> Result<Tree, Refusal> {
    let mut reader = Reader { tokens, nodes: Vec::new(), froms: 0, most_froms: 0, uses_twice: false };
    let root = reader.condition()?;
    if !reader.tokens.is_empty() {
        return Err(refusal::GRAMMAR);
    }
    Ok(Tree { nodes: reader.nodes, root, most_froms: reader.most_froms, uses_twice: reader.uses_twice })
}

/// The tokens that remain and the tree so far. Every reader below calls another one only for fewer tokens, or for a narrower
/// form of the same ones; calls nest only at `(`, and refusal 5 leaves at most 32 of these open.
struct Reader<'a> {
    tokens: &'a [Token],
    nodes: Vec<Node>,
    froms: usize,
    most_froms: usize,
    uses_twice: bool,
}

impl Reader<'_> {
    /// condition: one or more conjunctions joined by OR, grouped from the left.
    fn condition(&mut self) -> Result<Place, Refusal> {
        let mut left = self.conjunction()?;
        while self.follows(Token::Word(Word::Or)) {
            let right = self.conjunction()?;
            left = self.add(Node::Joined(OR, left, right));
        }
        Ok(left)
    }

    /// conjunction: one or more factors joined by AND, grouped from the left.
    fn conjunction(&mut self) -> Result<Place, Refusal> {
        let mut left = self.factor()?;
        while self.follows(Token::Word(Word::And)) {
            let right = self.factor()?;
            left = self.add(Node::Joined(AND, left, right));
        }
        Ok(left)
    }

    /// factor: NOT factor, or a test. The NOTs are counted, not nested, as there can be a thousand.
    fn factor(&mut self) -> Result<Place, Refusal> {
        let mut nots = 0;
        while self.follows(Token::Word(Word::Not)) {
            nots += 1;
        }
        let mut inner = self.test()?;
        for _ in 0..nots {
            inner = self.add(Node::Not(inner));
        }
        Ok(inner)
    }

    /// test: `(` condition `)`, which a truth test may follow; EXISTS; or one of the forms that begin with a value.
    fn test(&mut self) -> Result<Place, Refusal> {
        if self.follows(Token::Open) {
            let inner = self.condition()?;
            self.expect(Token::Close)?;
            if self.follows(Token::Word(Word::Is)) {
                self.truth_test(inner)
            } else {
                Ok(inner)
            }
        } else if self.follows(Token::Word(Word::Exists)) {
            self.expect(Token::Open)?;
            let subquery = self.subquery()?;
            self.expect(Token::Close)?;
            Ok(self.add(Node::Exists(subquery)))
        } else {
            let left = self.value()?;
            self.test_of(left)
        }
    }

    /// What stands after the IS of a bracketed condition: NOT or none, then TRUE, FALSE or UNKNOWN.
    fn truth_test(&mut self, inner: Place) -> Result<Place, Refusal> {
        let not = self.follows(Token::Word(Word::Not));
        let kind = match (self.next()?, not) {
            (Token::Word(Word::True), false) => IS_TRUE,
            (Token::Word(Word::True), true) => IS_NOT_TRUE,
            (Token::Word(Word::False), false) => IS_FALSE,
            (Token::Word(Word::False), true) => IS_NOT_FALSE,
            (Token::Word(Word::Unknown), false) => IS_UNKNOWN,
            (Token::Word(Word::Unknown), true) => IS_NOT_UNKNOWN,
            _ => return Err(refusal::GRAMMAR),
        };
        self.uses_twice |= matches!(kind, IS_UNKNOWN | IS_NOT_UNKNOWN);
        Ok(self.add(Node::Truth(kind, inner)))
    }

    /// What stands after the first value of a test. IN is SOME with `=`; NOT IN is ALL with `<>`.
    fn test_of(&mut self, left: Written) -> Result<Place, Refusal> {
        match self.next()? {
            Token::Word(Word::Is) => self.mark_test(left),
            Token::Word(Word::In) => self.list(SOME, EQUAL, left),
            Token::Word(Word::Not) => {
                self.expect(Token::Word(Word::In))?;
                self.list(ALL, NOT_EQUAL, left)
            }
            Token::Comparison(comparison) => {
                if self.follows(Token::Word(Word::Some)) {
                    self.list(SOME, comparison, left)
                } else if self.follows(Token::Word(Word::All)) {
                    self.list(ALL, comparison, left)
                } else {
                    let right = self.value()?;
                    Ok(self.add(Node::Comparison(comparison, left, right)))
                }
            }
            _ => Err(refusal::GRAMMAR),
        }
    }

    /// What stands after the IS of a value: NOT or none, then NULL or DECLINED.
    fn mark_test(&mut self, value: Written) -> Result<Place, Refusal> {
        let not = self.follows(Token::Word(Word::Not));
        let kind = match (self.next()?, not) {
            (Token::Word(Word::Null), false) => IS_NULL,
            (Token::Word(Word::Null), true) => IS_NOT_NULL,
            (Token::Word(Word::Declined), false) => IS_DECLINED,
            (Token::Word(Word::Declined), true) => IS_NOT_DECLINED,
            _ => return Err(refusal::GRAMMAR),
        };
        Ok(self.add(Node::Mark(kind, value)))
    }

    /// list: `(` SELECT value FROM number letter WHERE condition `)`.
    fn list(&mut self, kind: u8, comparison: u8, left: Written) -> Result<Place, Refusal> {
        self.expect(Token::Open)?;
        self.expect(Token::Word(Word::Select))?;
        let selected = self.value()?;
        let subquery = self.subquery()?;
        self.expect(Token::Close)?;
        Ok(self.add(Node::List(List { kind, comparison, left, selected, subquery })))
    }

    /// FROM number letter WHERE condition, as EXISTS and lists have it.
    fn subquery(&mut self) -> Result<Subquery, Refusal> {
        self.expect(Token::Word(Word::From))?;
        let table = self.number()?;
        let Token::Letter(letter) = self.next()? else {
            return Err(refusal::GRAMMAR);
        };
        self.expect(Token::Word(Word::Where))?;
        self.froms += 1;
        self.most_froms = self.most_froms.max(self.froms);
        let condition = self.condition()?;
        self.froms -= 1;
        Ok(Subquery { table, letter, condition })
    }

    /// value: a number, or letter `.` number.
    fn value(&mut self) -> Result<Written, Refusal> {
        match self.next()? {
            Token::Number(number) => Ok(Written::Number(number)),
            Token::Letter(letter) => {
                self.expect(Token::Dot)?;
                let column = self.number()?;
                Ok(Written::Column { letter, column })
            }
            _ => Err(refusal::GRAMMAR),
        }
    }

    /// Any number token, whether or not there is such a table or column.
    fn number(&mut self) -> Result<i32, Refusal> {
        match self.next()? {
            Token::Number(number) => Ok(number),
            _ => Err(refusal::GRAMMAR),
        }
    }

    /// Takes the next token, whichever it is.
    fn next(&mut self) -> Result<Token, Refusal> {
        let (&token, rest) = self.tokens.split_first().ok_or(refusal::GRAMMAR)?;
        self.tokens = rest;
        Ok(token)
    }

    /// Takes the next token if it is this one, and says whether it was.
    fn follows(&mut self, token: Token) -> bool {
        let follows = self.tokens.first() == Some(&token);
        if follows {
            self.tokens = &self.tokens[1..];
        }
        follows
    }

    /// Takes the next token, which must be this one.
    fn expect(&mut self, token: Token) -> Result<(), Refusal> {
        if self.follows(token) {
            Ok(())
        } else {
            Err(refusal::GRAMMAR)
        }
    }

    /// Puts a node in the tree.
    fn add(&mut self, node: Node) -> Place {
        self.nodes.push(node);
        self.nodes.len() - 1
    }
}
