//! Terms and patterns made of tokens.

use std::collections::HashSet;
use std::str::FromStr;

use super::lexer::{Lexer, Mode, Token};
use super::{TextError, MAX_DEPTH, MAX_NESTING, MAX_RECORDS, MAX_VARIABLES};
use crate::{Expression, Item, Pattern, Value, Variable};

/// What is wrong with a `:` that follows no name at the start of a sentence.
pub(super) const COLON: &str = "a : follows only the name of a sentence, one identifier at its start; is a ; missing before it?";

/// A part of a message or pattern.
trait Part: Sized {
    /// The deepest bracket.
    const DEEPEST: usize;

    /// The part that one token is; nothing for a sign.
    fn of_token(token: Token) -> Option<Self>;

    fn bracket(contents: Vec<Self>) -> Self;
}

impl Part for Value {
    const DEEPEST: usize = MAX_DEPTH;

    fn of_token(token: Token) -> Option<Value> {
        match token {
            Token::Char(c) => Some(Value::Char(c)),
            Token::Identifier(word) => Some(Value::Identifier(word.into())),
            Token::Number(word) => Some(Value::Number(word.into())),
            Token::Unknown { kind, level, index } => Some(Value::Unknown { kind, level, index }),
            Token::Variable { .. } | Token::Sign(_) => None,
        }
    }

    fn bracket(contents: Vec<Value>) -> Value {
        Value::Bracket(contents)
    }
}

impl Part for Item {
    const DEEPEST: usize = MAX_NESTING;

    fn of_token(token: Token) -> Option<Item> {
        match token {
            Token::Char(c) => Some(Item::Char(c)),
            Token::Identifier(word) => Some(Item::Identifier(word.into())),
            Token::Number(word) => Some(Item::Number(word.into())),
            Token::Variable { kind, name } => Some(Item::Variable(Variable { kind, name: name.into() })),
            Token::Unknown { .. } | Token::Sign(_) => None,
        }
    }

    fn bracket(contents: Vec<Item>) -> Item {
        Item::Bracket(contents)
    }
}

/// A tree that is being read.
struct Tree<T> {
    /// The brackets that are open: where each stands, and what was read before it on its level.
    open: Vec<(usize, Vec<T>)>,
    level: Vec<T>,
}

impl<T: Part> Tree<T> {
    fn new() -> Tree<T> {
        Tree { open: Vec::new(), level: Vec::new() }
    }

    /// Takes a term or bracket; false for any other sign, of which nothing is taken.
    fn take(&mut self, lexer: &Lexer, at: usize, token: Token) -> Result<bool, TextError> {
        if let Some(part) = T::of_token(token) {
            self.level.push(part);
            return Ok(true);
        }
        match token {
            Token::Sign('(') if self.open.len() == T::DEEPEST => Err(lexer.error(at, format!("brackets are at most {} deep", T::DEEPEST))),
            Token::Sign('(') => {
                self.open.push((at, std::mem::take(&mut self.level)));
                Ok(true)
            }
            Token::Sign(')') => match self.open.pop() {
                Some((_, before)) => {
                    let contents = std::mem::replace(&mut self.level, before);
                    self.level.push(T::bracket(contents));
                    Ok(true)
                }
                None => Ok(false),
            },
            _ => Ok(false),
        }
    }

    /// The whole tree, which has to have all brackets closed.
    fn finish(self, lexer: &Lexer) -> Result<Vec<T>, TextError> {
        match self.open.last() {
            Some((at, _)) => Err(lexer.unclosed(*at, "(")),
            None => Ok(self.level),
        }
    }
}

/// A pattern that is being read, with what counts towards its limits.
pub(super) struct PatternTree {
    tree: Tree<Item>,
    records: usize,
    variables: HashSet<Variable>,
}

impl PatternTree {
    pub(super) fn new() -> PatternTree {
        PatternTree { tree: Tree::new(), records: 0, variables: HashSet::new() }
    }

    /// Takes a token of a pattern.
    pub(super) fn take(&mut self, lexer: &Lexer, at: usize, token: Token) -> Result<(), TextError> {
        if let (false, Token::Sign(sign)) = (self.tree.take(lexer, at, token)?, token) {
            return Err(lexer.misplaced(at, sign, Mode::Pattern));
        }
        if let Token::Variable { kind, name } = token {
            self.variables.insert(Variable { kind, name: name.into() });
            if self.variables.len() > MAX_VARIABLES {
                return Err(lexer.error(at, format!("a pattern has at most {MAX_VARIABLES} different variables")));
            }
        }
        self.count(lexer, at)
    }

    /// Takes a call or block, whose contents were passed over.
    fn take_item(&mut self, lexer: &Lexer, at: usize, item: Item) -> Result<(), TextError> {
        self.tree.level.push(item);
        self.count(lexer, at)
    }

    fn count(&mut self, lexer: &Lexer, at: usize) -> Result<(), TextError> {
        self.records += 1;
        if self.records <= MAX_RECORDS {
            return Ok(());
        }
        Err(lexer.error(at, format!("a pattern has at most {MAX_RECORDS} terms and variables, a bracket counting as two")))
    }

    pub(super) fn finish(self, lexer: &Lexer) -> Result<Pattern, TextError> {
        self.tree.finish(lexer).map(Pattern)
    }
}

/// The rest of the text as terms.
pub(super) fn terms(lexer: &mut Lexer) -> Result<Expression, TextError> {
    let mut tree = Tree::new();
    while let Some((at, token)) = lexer.next(Mode::Message)? {
        if let (false, Token::Sign(sign)) = (tree.take(lexer, at, token)?, token) {
            return Err(lexer.misplaced(at, sign, Mode::Message));
        }
    }
    tree.finish(lexer).map(Expression)
}

/// Passes over what is not kept. After an opening sign that is up to its closing sign; without one, up to the `;` or the end of a sentence.
pub(super) fn pass_over(lexer: &mut Lexer, opened: Option<(usize, char)>) -> Result<(), TextError> {
    let mut open = Vec::from_iter(opened);
    while let Some((at, token)) = lexer.next(Mode::Passed)? {
        let Token::Sign(sign) = token else {
            continue;
        };
        match (sign, open.last().copied()) {
            ('(' | '<' | '{', _) => open.push((at, sign)),
            (')', Some((_, '('))) | ('>', Some((_, '<'))) | ('}', Some((_, '{'))) => {
                open.pop();
                if opened.is_some() && open.is_empty() {
                    return Ok(());
                }
            }
            (')' | '>' | '}', _) => return Err(lexer.misplaced(at, sign, Mode::Passed)),
            (';', None) => return Ok(()),
            (';', Some((start, bracket))) if bracket != '{' => return Err(lexer.unclosed(start, &bracket.to_string())),
            ('=', None) => return Err(lexer.error(at, "a second = in the sentence; a sentence ends with ;")),
            // Without this error, a sentence without = would become part of the right side before it, whose ; was forgotten.
            (':', None) => return Err(lexer.error(at, COLON)),
            _ => {}
        }
    }
    match open.last() {
        Some((at, sign)) => Err(lexer.unclosed(*at, &sign.to_string())),
        None => Ok(()),
    }
}

/// The only part of a text.
fn only<T>(text: &str, mut parts: Vec<T>, what: &str) -> Result<T, TextError> {
    let count = parts.len();
    match parts.pop() {
        Some(part) if count == 1 => Ok(part),
        _ => Err(TextError::new(text, 0, format!("expected one {what}, found {count}"))),
    }
}

impl FromStr for Expression {
    type Err = TextError;

    fn from_str(text: &str) -> Result<Expression, TextError> {
        terms(&mut Lexer::new(text))
    }
}

/// Exactly one term.
impl FromStr for Value {
    type Err = TextError;

    fn from_str(text: &str) -> Result<Value, TextError> {
        only(text, text.parse::<Expression>()?.0, "term")
    }
}

impl FromStr for Pattern {
    type Err = TextError;

    fn from_str(text: &str) -> Result<Pattern, TextError> {
        let mut lexer = Lexer::new(text);
        let mut pattern = PatternTree::new();
        while let Some((at, token)) = lexer.next(Mode::Pattern)? {
            if let Token::Sign(sign @ ('<' | '{')) = token {
                pass_over(&mut lexer, Some((at, sign)))?;
                pattern.take_item(&lexer, at, if sign == '<' { Item::Call } else { Item::Block })?;
            } else {
                pattern.take(&lexer, at, token)?;
            }
        }
        pattern.finish(&lexer)
    }
}

/// Exactly one term or variable.
impl FromStr for Item {
    type Err = TextError;

    fn from_str(text: &str) -> Result<Item, TextError> {
        only(text, text.parse::<Pattern>()?.0, "term or variable")
    }
}

/// Exactly one variable, such as `e.Item`.
impl FromStr for Variable {
    type Err = TextError;

    fn from_str(text: &str) -> Result<Variable, TextError> {
        match only(text, text.parse::<Pattern>()?.0, "variable")? {
            Item::Variable(variable) => Ok(variable),
            other => Err(TextError::new(text, 0, format!("expected a variable such as e.Item, found {other}"))),
        }
    }
}
