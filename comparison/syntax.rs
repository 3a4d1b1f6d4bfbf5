//! Versions of a program as plain trees: each node has its head's text, as it stands in the input, and
//! its own parts, and what changed is found by comparing two trees part by part.
//!
//! It reads what `crates/syntax_run` reads, and tells the same of it, for versions without errors. At an
//! error it writes a line to standard error, and ends with status 1. How many trees are distinct, new
//! and gone it tells only with the argument `counts`: it looks up each tree in a set then.
mod hash;

use hash::{HashMap, HashSet};
use std::hash::{Hash, Hasher};
use std::io::{self, Read, Write};
use std::process::ExitCode;

/// Trees may be as deep as the input is long, and are walked and freed by recursion.
const STACK: usize = 1 << 30;

const KEYWORDS: [&str; 6] = ["if", "then", "else", "let", "in", "fn"];

/// Each operator, its head, and how tightly it binds.
const OPERATORS: [(&str, &str, u8); 6] =
    [("+", "add", 2), ("-", "sub", 2), ("*", "mul", 3), ("/", "div", 3), ("<", "lt", 1), ("==", "eq", 1)];

type Error = Box<dyn std::error::Error + Send + Sync>;

/// A line and a column, both from 1 on.
type Place = (usize, usize);

/// A tree, and where it begins. That is no part of its value.
struct Tree<'a> {
    head: &'a str,
    parts: Vec<Tree<'a>>,
    place: Place,
}

impl PartialEq for Tree<'_> {
    fn eq(&self, other: &Self) -> bool {
        self.head == other.head && self.parts == other.parts
    }
}

impl Eq for Tree<'_> {}

impl Hash for Tree<'_> {
    fn hash<H: Hasher>(&self, state: &mut H) {
        self.head.hash(state);
        self.parts.hash(state);
    }
}

/// A program: its items, and how many trees it has.
#[derive(Default)]
struct Program<'a> {
    items: Vec<Tree<'a>>,
    trees: usize,
}

#[derive(Clone, Copy, PartialEq)]
enum Token<'a> {
    Word(&'a str),
    /// A name, and the parenthesis after it.
    Call(&'a str),
    End,
}

fn is_of_word(c: char) -> bool {
    c.is_ascii_alphanumeric() || c == '_'
}

fn is_name(word: &str) -> bool {
    word.starts_with(|c: char| c.is_ascii_alphabetic() || c == '_') && !KEYWORDS.contains(&word)
}

/// Adds the tokens of a line.
fn read_line<'a>(line: &'a str, number: usize, tokens: &mut Vec<(Token<'a>, Place)>) {
    let (mut rest, mut column) = (line, 1);
    loop {
        let blank = rest.len() - rest.trim_start().len();
        column += rest[..blank].chars().count();
        rest = &rest[blank..];
        let length = match rest.chars().next() {
            None | Some('#') => return,
            Some(first) if is_of_word(first) => rest.find(|c| !is_of_word(c)).unwrap_or(rest.len()),
            Some(_) if rest.starts_with("==") => 2,
            Some(first) => first.len_utf8(),
        };
        let (word, behind) = rest.split_at(length);
        let place = (number, column);
        column += word.chars().count();
        rest = behind;
        match behind.trim_start().strip_prefix('(') {
            Some(inside) if is_name(word) => {
                tokens.push((Token::Call(word), place));
                column += behind[..behind.len() - inside.len()].chars().count();
                rest = inside;
            }
            _ => tokens.push((Token::Word(word), place)),
        }
    }
}

struct Parser<'a> {
    tokens: std::vec::IntoIter<(Token<'a>, Place)>,
    token: Token<'a>,
    place: Place,
    trees: usize,
}

impl<'a> Parser<'a> {
    fn advance(&mut self) -> (Token<'a>, Place) {
        let passed = (self.token, self.place);
        (self.token, self.place) = self.tokens.next().unwrap_or((Token::End, self.place));
        passed
    }

    fn wrong<T>(&self, expected: &str) -> Result<T, Error> {
        let (line, column) = self.place;
        Err(format!("line {line}, column {column}: expected {expected}").into())
    }

    fn expect(&mut self, word: &str) -> Result<(), Error> {
        if self.token != Token::Word(word) {
            return self.wrong(word);
        }
        self.advance();
        Ok(())
    }

    fn tree(&mut self, head: &'a str, parts: Vec<Tree<'a>>, place: Place) -> Tree<'a> {
        self.trees += 1;
        Tree { head, parts, place }
    }

    fn name(&mut self) -> Result<Tree<'a>, Error> {
        match self.token {
            Token::Word(word) if is_name(word) => self.atom(),
            _ => self.wrong("a name"),
        }
    }

    fn item(&mut self) -> Result<Tree<'a>, Error> {
        let (keyword, place) = self.advance();
        let (head, defined) = match (keyword, self.token) {
            (Token::Word("let"), _) => ("let", self.name()?),
            (Token::Word("fn"), Token::Call(name)) => {
                let (_, place) = self.advance();
                let mut parameters = vec![self.name()?];
                while self.token == Token::Word(",") {
                    self.advance();
                    parameters.push(self.name()?);
                }
                self.expect(")")?;
                ("fn", self.tree(name, parameters, place))
            }
            _ => return self.wrong("an item"),
        };
        self.expect("=")?;
        let value = self.expression(1)?;
        self.expect(";")?;
        Ok(self.tree(head, vec![defined, value], place))
    }

    /// Operands between operators that bind at least so tightly.
    fn expression(&mut self, least: u8) -> Result<Tree<'a>, Error> {
        let mut left = self.atom()?;
        loop {
            let is_here = |operator: &&(&str, &str, u8)| self.token == Token::Word(operator.0);
            match OPERATORS.iter().find(is_here) {
                Some((_, head, strength)) if *strength >= least => {
                    self.advance();
                    let place = left.place;
                    let right = self.expression(strength + 1)?;
                    left = self.tree(head, vec![left, right], place);
                }
                _ => return Ok(left),
            }
        }
    }

    fn atom(&mut self) -> Result<Tree<'a>, Error> {
        let (token, place) = self.advance();
        match token {
            Token::Call(name) => {
                let mut parts = vec![self.expression(1)?];
                while self.token == Token::Word(",") {
                    self.advance();
                    parts.push(self.expression(1)?);
                }
                self.expect(")")?;
                Ok(self.tree(name, parts, place))
            }
            Token::Word("(") => {
                let inside = self.expression(1)?;
                self.expect(")")?;
                Ok(inside)
            }
            Token::Word("if") => {
                let condition = self.expression(1)?;
                self.expect("then")?;
                let first = self.expression(1)?;
                self.expect("else")?;
                let second = self.expression(1)?;
                Ok(self.tree("then", vec![condition, first, second], place))
            }
            Token::Word("let") => {
                let name = self.name()?;
                self.expect("=")?;
                let value = self.expression(1)?;
                self.expect("in")?;
                let scope = self.expression(1)?;
                Ok(self.tree("let", vec![name, value, scope], place))
            }
            Token::Word(word) if is_name(word) || word.bytes().all(|byte| byte.is_ascii_digit()) => {
                Ok(self.tree(word, Vec::new(), place))
            }
            _ => self.wrong("an expression"),
        }
    }
}

fn parse<'a>(tokens: Vec<(Token<'a>, Place)>) -> Result<Program<'a>, Error> {
    let mut parser = Parser { tokens: tokens.into_iter(), token: Token::End, place: (1, 1), trees: 0 };
    parser.advance();
    let mut items = Vec::new();
    while parser.token != Token::End {
        items.push(parser.item()?);
    }
    Ok(Program { items, trees: parser.trees })
}

/// Writes an expression, with operators, `if` and `let` in parentheses.
fn write_tree(out: &mut String, tree: &Tree) {
    let operator = OPERATORS.iter().find(|operator| operator.1 == tree.head);
    let parts = match (tree.head, &tree.parts[..], operator) {
        (_, [left, right], Some((sign, ..))) => vec![("(", left), (sign, right)],
        ("then", [first, second, third], _) => vec![("(if ", first), ("then", second), ("else", third)],
        ("let", [first, second, third], _) => vec![("(let ", first), ("=", second), ("in", third)],
        _ => return write_call(out, tree),
    };
    for (place, (before, part)) in parts.into_iter().enumerate() {
        out.push_str(if place == 0 { "" } else { " " });
        out.push_str(before);
        out.push_str(if place == 0 { "" } else { " " });
        write_tree(out, part);
    }
    out.push(')');
}

/// Writes the head of a tree, and in parentheses its parts, if it has any.
fn write_call(out: &mut String, tree: &Tree) {
    out.push_str(tree.head);
    for (place, part) in tree.parts.iter().enumerate() {
        out.push_str(if place == 0 { "(" } else { ", " });
        write_tree(out, part);
    }
    out.push_str(if tree.parts.is_empty() { "" } else { ")" });
}

/// Writes an item. What it defines is a name or a call, also where its head is an operator's.
fn write_item(out: &mut String, item: &Tree) {
    out.push_str(&format!("{} ", item.head));
    write_call(out, &item.parts[0]);
    out.push_str(" = ");
    write_tree(out, &item.parts[1]);
    out.push(';');
}

/// Tells an item that was added or removed.
fn tell_item(out: &mut String, what: &str, item: &Tree) {
    out.push_str(&format!("  {what} at {}:{}: ", item.place.0, item.place.1));
    write_item(out, item);
    out.push('\n');
}

/// Tells the smallest parts with another head, or another number of parts, each written so.
fn write_changes(out: &mut String, old: &Tree, new: &Tree, write: fn(&mut String, &Tree)) {
    if old.head == new.head && old.parts.len() == new.parts.len() {
        for (old, new) in old.parts.iter().zip(&new.parts) {
            write_changes(out, old, new, write_tree);
        }
        return;
    }
    out.push_str(&format!("  changed at {}:{}: ", old.place.0, old.place.1));
    write(out, old);
    out.push_str(&format!(", now at {}:{}: ", new.place.0, new.place.1));
    write(out, new);
    out.push('\n');
}

/// Tells what changed in an item.
fn write_item_changes(out: &mut String, old: &Tree, new: &Tree) {
    if old.head != new.head {
        return write_changes(out, old, new, write_item);
    }
    write_changes(out, &old.parts[0], &new.parts[0], write_call);
    write_changes(out, &old.parts[1], &new.parts[1], write_tree);
}

/// The items of a program, each under the name that it defines and how many before it define the
/// same name.
fn by_definition<'p>(program: &'p Program) -> HashMap<(&'p str, usize), &'p Tree<'p>> {
    let mut items = HashMap::default();
    for (definition, item) in definitions(program).into_iter().zip(&program.items) {
        items.insert(definition, item);
    }
    items
}

/// The name that each item defines, and how many items before it define the same name.
fn definitions<'p>(program: &'p Program) -> Vec<(&'p str, usize)> {
    let mut counts: HashMap<&str, usize> = HashMap::default();
    let mut definitions = Vec::new();
    for item in &program.items {
        let count = counts.entry(item.parts[0].head).or_default();
        definitions.push((item.parts[0].head, *count));
        *count += 1;
    }
    definitions
}

/// Tells each item that was added, each that was removed, and in each other what changed.
fn write_all_changes(out: &mut String, old: &Program, new: &Program) {
    let (old_items, new_items) = (by_definition(old), by_definition(new));
    for (definition, item) in definitions(old).iter().zip(&old.items) {
        if !new_items.contains_key(definition) {
            tell_item(out, "removed", item);
        }
    }
    for (definition, item) in definitions(new).iter().zip(&new.items) {
        match old_items.get(definition) {
            Some(old) => write_item_changes(out, old, item),
            None => tell_item(out, "added", item),
        }
    }
}

/// Adds all parts of trees to a set.
fn add_parts<'t>(distinct: &mut HashSet<&'t Tree<'t>>, trees: &'t [Tree]) {
    for tree in trees {
        add_parts(distinct, &tree.parts);
        distinct.insert(tree);
    }
}

fn distinct<'p>(program: &'p Program) -> HashSet<&'p Tree<'p>> {
    let mut distinct = HashSet::default();
    add_parts(&mut distinct, &program.items);
    distinct
}

/// Tells a version.
fn write_version(out: &mut String, number: usize, old: &Program, new: &Program, counts: bool) {
    out.push_str(&format!("version {number}: {} terms", new.trees));
    let sets = counts.then(|| (distinct(old), distinct(new)));
    if let Some((olds, news)) = &sets {
        out.push_str(&format!(", {} distinct, {} new", news.len(), news.difference(olds).count()));
    }
    out.push('\n');
    if number > 1 {
        write_all_changes(out, old, new);
    }
    if let Some((olds, news)) = &sets {
        out.push_str(&format!("  {} terms are gone\n", olds.difference(news).count()));
    }
}

fn run() -> Result<(), Error> {
    let counts = std::env::args().nth(1).is_some_and(|argument| argument == "counts");
    let mut text = String::new();
    io::stdin().read_to_string(&mut text)?;
    let (mut out, mut before, mut number, mut tokens) = (String::new(), Program::default(), 0, Vec::new());
    for (line, place) in text.lines().chain(["---"]).zip(1..) {
        if line.trim_end() != "---" {
            read_line(line, place, &mut tokens);
            continue;
        }
        number += 1;
        let program = parse(std::mem::take(&mut tokens))?;
        write_version(&mut out, number, &before, &program, counts);
        before = program;
    }
    Ok(io::stdout().write_all(out.as_bytes())?)
}

fn main() -> ExitCode {
    let thread = std::thread::Builder::new().stack_size(STACK).spawn(run).expect("a thread");
    match thread.join().expect("an end") {
        Ok(()) => ExitCode::SUCCESS,
        Err(error) => {
            eprintln!("syntax: {error}");
            ExitCode::from(1)
        }
    }
}
