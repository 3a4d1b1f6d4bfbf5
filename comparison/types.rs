//! Hindley-Milner inference over plain values: a type is a tree of counted boxes, and two types are
//! compared part by part.
//!
//! It reads what `crates/types_run` reads, infers in the same way, and writes the same types, for
//! declarations without errors. At an error it writes a line to standard error, and ends with status
//! 1. It doesn't write the last line of `crates/types_run`, which tells what its store holds.
mod hash;

use hash::HashMap;
use std::io::{self, Read, Write};
use std::process::ExitCode;
use std::rc::Rc;

/// Trees may be as deep as the input is long, and are copied and freed by recursion.
const STACK: usize = 1 << 30;

/// How many pieces of a type are written.
const MOST_PIECES: usize = 100;

type Error = Box<dyn std::error::Error + Send + Sync>;

type Tree = Rc<Type>;

enum Type {
    Integer,
    Boolean,
    /// A type that isn't known yet, by its number in the declaration that is inferred.
    Unknown(usize),
    /// Any type: a variable of a type scheme, numbered as they occur first.
    Any(usize),
    Function(Tree, Tree),
    Pair(Tree, Tree),
}

/// What is known of an unknown type: the level of bindings that it belongs to, or what it is.
enum Known {
    Nothing(usize),
    Is(Tree),
}

/// What becomes of the leaves of a copy.
#[derive(Clone, Copy)]
enum Leaves {
    /// Each unknown type above this level becomes any type.
    Generalised(usize),
    /// Each type that is any type becomes a new unknown one.
    Instantiated,
}

/// What was copied: leaves under their numbers, and other parts under where they lie.
#[derive(Default)]
struct Copies {
    leaves: HashMap<usize, Tree>,
    parts: HashMap<*const Type, Tree>,
}

#[derive(Clone)]
enum Scheme {
    /// This type, the same each time.
    Plain(Tree),
    /// Each instance of this type, another each time.
    General(Tree),
}

#[derive(Clone, Copy)]
struct Binding<'a> {
    name: &'a str,
    is_recursive: bool,
}

/// What a step of an expression does to the operands before it.
enum Step<'a> {
    Integer,
    Boolean,
    Variable(&'a str),
    BeginFunction(&'a str),
    EndFunction,
    Apply,
    Calculate,
    Compare,
    Pair,
    Condition,
    Branches,
    BeginBinding(Binding<'a>),
    EndBinding(Binding<'a>),
    EndScope,
}

#[derive(Default)]
struct Inference<'a> {
    declared: HashMap<&'a str, Tree>,
    unknowns: Vec<Known>,
    scope: HashMap<&'a str, Scheme>,
    /// The names that are bound, and what they stood for outside.
    bound: Vec<(&'a str, Option<Scheme>)>,
    operands: Vec<Tree>,
    level: usize,
}

impl<'a> Inference<'a> {
    /// The principal type of a declaration.
    fn infer(&mut self, binding: Binding<'a>, steps: &[Step<'a>]) -> Result<Tree, Error> {
        self.unknowns.clear();
        self.begin_binding(binding);
        for step in steps {
            self.step(step)?;
        }
        self.end_binding(binding)
    }

    fn step(&mut self, step: &Step<'a>) -> Result<(), Error> {
        let made = match step {
            Step::Integer => Rc::new(Type::Integer),
            Step::Boolean => Rc::new(Type::Boolean),
            Step::Variable(name) => self.variable(name)?,
            Step::BeginFunction(name) => return Ok(self.begin_function(name)),
            Step::EndFunction => {
                let parameter = self.leave();
                Rc::new(Type::Function(parameter, self.pop()))
            }
            Step::Apply => self.apply()?,
            Step::Calculate | Step::Compare => {
                let (right, left) = (self.pop(), self.pop());
                self.unify(left, Rc::new(Type::Integer))?;
                self.unify(right, Rc::new(Type::Integer))?;
                Rc::new(if matches!(step, Step::Compare) { Type::Boolean } else { Type::Integer })
            }
            Step::Pair => {
                let (second, first) = (self.pop(), self.pop());
                Rc::new(Type::Pair(first, second))
            }
            Step::Condition => {
                let condition = self.pop();
                return self.unify(condition, Rc::new(Type::Boolean));
            }
            Step::Branches => {
                let (second, first) = (self.pop(), self.pop());
                self.unify(first.clone(), second)?;
                first
            }
            Step::BeginBinding(binding) => return Ok(self.begin_binding(*binding)),
            Step::EndBinding(binding) => {
                let general = self.end_binding(*binding)?;
                return Ok(self.enter(binding.name, Scheme::General(general)));
            }
            Step::EndScope => {
                self.leave();
                return Ok(());
            }
        };
        self.operands.push(made);
        Ok(())
    }

    fn pop(&mut self) -> Tree {
        self.operands.pop().expect("an operand")
    }

    fn fresh(&mut self) -> Tree {
        self.unknowns.push(Known::Nothing(self.level));
        Rc::new(Type::Unknown(self.unknowns.len() - 1))
    }

    fn enter(&mut self, name: &'a str, scheme: Scheme) {
        let outside = self.scope.insert(name, scheme);
        self.bound.push((name, outside));
    }

    /// Ends the scope of the name that was bound last, and answers what it stood for.
    fn leave(&mut self) -> Tree {
        let (name, outside) = self.bound.pop().expect("a name");
        let scheme = match outside {
            Some(outside) => self.scope.insert(name, outside),
            None => self.scope.remove(name),
        };
        match scheme.expect("what it stood for") {
            Scheme::Plain(tree) | Scheme::General(tree) => tree,
        }
    }

    fn variable(&mut self, name: &str) -> Result<Tree, Error> {
        let general = match self.scope.get(name) {
            Some(Scheme::Plain(tree)) => return Ok(tree.clone()),
            Some(Scheme::General(tree)) => tree,
            None => self.declared.get(name).ok_or_else(|| format!("unbound name {name}"))?,
        };
        let general = general.clone();
        Ok(self.copy(&general, Leaves::Instantiated, &mut Copies::default()))
    }

    fn begin_function(&mut self, name: &'a str) {
        let parameter = self.fresh();
        self.enter(name, Scheme::Plain(parameter));
    }

    fn apply(&mut self) -> Result<Tree, Error> {
        let (argument, function) = (self.pop(), self.pop());
        let function = self.resolve(function);
        if let Type::Function(from, to) = &*function {
            self.unify(from.clone(), argument)?;
            return Ok(to.clone());
        }
        let answer = self.fresh();
        self.unify(function, Rc::new(Type::Function(argument, answer.clone())))?;
        Ok(answer)
    }

    fn begin_binding(&mut self, binding: Binding<'a>) {
        self.level += 1;
        if binding.is_recursive {
            self.begin_function(binding.name);
        }
    }

    /// The type of what is bound, in which what is unknown here and outside is any type.
    fn end_binding(&mut self, binding: Binding<'a>) -> Result<Tree, Error> {
        let tree = self.pop();
        if binding.is_recursive {
            let own = self.leave();
            self.unify(own, tree.clone())?;
        }
        self.level -= 1;
        Ok(self.copy(&tree, Leaves::Generalised(self.level), &mut Copies::default()))
    }

    /// What a type is, as far as it is known.
    fn resolve(&self, tree: Tree) -> Tree {
        let mut tree = tree;
        while let Type::Unknown(number) = *tree {
            match &self.unknowns[number] {
                Known::Is(next) => tree = next.clone(),
                Known::Nothing(_) => break,
            }
        }
        tree
    }

    fn unify(&mut self, left: Tree, right: Tree) -> Result<(), Error> {
        let mut open = vec![(left, right)];
        while let Some((left, right)) = open.pop() {
            let (left, right) = (self.resolve(left), self.resolve(right));
            match (&*left, &*right) {
                (Type::Unknown(one), Type::Unknown(other)) if one == other => {}
                (Type::Unknown(number), _) => self.bind(*number, right)?,
                (_, Type::Unknown(number)) => self.bind(*number, left)?,
                (Type::Integer, Type::Integer) | (Type::Boolean, Type::Boolean) => {}
                (Type::Function(a, b), Type::Function(c, d)) | (Type::Pair(a, b), Type::Pair(c, d)) => {
                    open.push((b.clone(), d.clone()));
                    open.push((a.clone(), c.clone()));
                }
                _ => return Err("two types can't be unified".into()),
            }
        }
        Ok(())
    }

    /// An unknown type becomes a type that it is no part of, whose unknown types then belong to its
    /// level.
    fn bind(&mut self, number: usize, tree: Tree) -> Result<(), Error> {
        let Known::Nothing(level) = self.unknowns[number] else { unreachable!("it isn't known") };
        let mut open = vec![tree.clone()];
        while let Some(part) = open.pop() {
            match &*self.resolve(part) {
                Type::Unknown(other) if *other == number => return Err("infinite type".into()),
                Type::Unknown(other) => {
                    if let Known::Nothing(of_other) = &mut self.unknowns[*other] {
                        *of_other = level.min(*of_other);
                    }
                }
                Type::Function(first, second) | Type::Pair(first, second) => {
                    open.push(second.clone());
                    open.push(first.clone());
                }
                _ => {}
            }
        }
        self.unknowns[number] = Known::Is(tree);
        Ok(())
    }

    /// A copy of a type with other leaves. Each part is copied once, and not where none of its leaves is another.
    fn copy(&mut self, tree: &Tree, leaves: Leaves, made: &mut Copies) -> Tree {
        let tree = self.resolve(tree.clone());
        if let Some(copy) = made.parts.get(&Rc::as_ptr(&tree)) {
            return copy.clone();
        }
        let (Type::Function(first, second) | Type::Pair(first, second)) = &*tree else {
            return self.copy_leaf(tree, leaves, &mut made.leaves);
        };
        let (one, other) = (self.copy(first, leaves, made), self.copy(second, leaves, made));
        let copy = match &*tree {
            _ if Rc::ptr_eq(&one, first) && Rc::ptr_eq(&other, second) => tree.clone(),
            Type::Function(..) => Rc::new(Type::Function(one, other)),
            _ => Rc::new(Type::Pair(one, other)),
        };
        made.parts.insert(Rc::as_ptr(&tree), copy.clone());
        copy
    }

    /// A copy of a leaf, which is kept under its number.
    fn copy_leaf(&mut self, tree: Tree, leaves: Leaves, made: &mut HashMap<usize, Tree>) -> Tree {
        match (&*tree, leaves) {
            (Type::Unknown(number), Leaves::Generalised(above)) => match self.unknowns[*number] {
                Known::Nothing(level) if level > above => {
                    let next = made.len();
                    made.entry(*number).or_insert_with(|| Rc::new(Type::Any(next))).clone()
                }
                _ => tree,
            },
            (Type::Any(number), Leaves::Instantiated) => made.entry(*number).or_insert_with(|| self.fresh()).clone(),
            _ => tree,
        }
    }
}

/// How tightly what is around a type binds it: not at all, as a parameter, or as a part of a pair.
#[derive(Clone, Copy, PartialEq)]
enum Around {
    Nothing,
    Parameter,
    Part,
}

/// Writes a type, until no piece is left to be written.
struct Writer<'o> {
    out: &'o mut String,
    left: usize,
    is_cut: bool,
}

impl Writer<'_> {
    fn text(&mut self, text: &str) {
        if self.left == 0 {
            self.is_cut = true;
            return;
        }
        self.left -= 1;
        self.out.push_str(text);
    }

    fn tree(&mut self, tree: &Type, around: Around) {
        match tree {
            _ if self.left == 0 => self.is_cut = true,
            Type::Function(from, to) => {
                let parts = [(from, Around::Parameter), (to, Around::Nothing)];
                self.parts(parts, " -> ", around != Around::Nothing);
            }
            Type::Pair(first, second) => {
                self.parts([(first, Around::Part), (second, Around::Part)], " * ", around == Around::Part);
            }
            Type::Any(number) => {
                let letter = char::from(b'a' + (number % 26) as u8);
                let round = if *number < 26 { String::new() } else { (number / 26).to_string() };
                self.text(&format!("'{letter}{round}"));
            }
            Type::Boolean => self.text("bool"),
            _ => self.text("int"),
        }
    }

    fn parts(&mut self, parts: [(&Tree, Around); 2], between: &str, is_held: bool) {
        self.left -= 1;
        let [(first, around_first), (second, around_second)] = parts;
        if is_held {
            self.text("(");
        }
        self.tree(first, around_first);
        self.text(between);
        self.tree(second, around_second);
        if is_held {
            self.text(")");
        }
    }
}

/// Appends a type. Of one that is too long the beginning, and two dots.
fn write_type(out: &mut String, tree: &Type) {
    let mut writer = Writer { out, left: MOST_PIECES, is_cut: false };
    writer.tree(tree, Around::Nothing);
    if writer.is_cut {
        out.push_str("..");
    }
}

fn is_letter(character: char) -> bool {
    character.is_alphanumeric() || character == '_' || character == '\''
}

/// What is left of a text, of which each token is taken in turn.
struct Tokens<'a> {
    rest: &'a str,
}

impl<'a> Iterator for Tokens<'a> {
    type Item = &'a str;

    fn next(&mut self) -> Option<&'a str> {
        loop {
            let rest = self.rest.trim_start();
            let first = rest.chars().next()?;
            let length = match first {
                '#' => rest.find('\n').unwrap_or(rest.len()),
                _ if is_letter(first) => rest.find(|c| !is_letter(c)).unwrap_or(rest.len()),
                _ if rest.starts_with("->") || rest.starts_with("==") => 2,
                _ => first.len_utf8(),
            };
            self.rest = &rest[length..];
            if first != '#' {
                return Some(&rest[..length]);
            }
        }
    }
}

const KEYWORDS: [&str; 9] = ["let", "rec", "in", "if", "then", "else", "fun", "true", "false"];

fn is_name(token: &str) -> bool {
    token.starts_with(|c: char| c.is_alphabetic() || c == '_') && !KEYWORDS.contains(&token)
}

/// A parser, with the steps of the declaration that it reads.
struct Parser<'a> {
    tokens: Tokens<'a>,
    token: &'a str,
    steps: Vec<Step<'a>>,
}

impl<'a> Parser<'a> {
    fn advance(&mut self) -> &'a str {
        std::mem::replace(&mut self.token, self.tokens.next().unwrap_or(""))
    }

    /// Whether this token is here, which is passed then.
    fn is_at(&mut self, token: &str) -> bool {
        let is_at = self.token == token;
        if is_at {
            self.advance();
        }
        is_at
    }

    fn expect(&mut self, token: &str) -> Result<(), Error> {
        if self.is_at(token) {
            return Ok(());
        }
        Err(format!("`{token}` should stand in the place of `{}`", self.token).into())
    }

    fn name(&mut self) -> Result<&'a str, Error> {
        match self.advance() {
            name if is_name(name) => Ok(name),
            other => Err(format!("a name should stand in the place of `{other}`").into()),
        }
    }

    /// A declaration, up to its semicolon.
    fn declaration(&mut self) -> Result<Binding<'a>, Error> {
        self.is_at("let");
        let binding = Binding { is_recursive: self.is_at("rec"), name: self.name()? };
        self.function("=")?;
        self.expect(";")?;
        Ok(binding)
    }

    /// Parameters up to a mark, and what they are the parameters of.
    fn function(&mut self, mark: &str) -> Result<(), Error> {
        let mut parameters = 0;
        while !self.is_at(mark) {
            let name = self.name()?;
            self.steps.push(Step::BeginFunction(name));
            parameters += 1;
        }
        self.expression(1)?;
        self.steps.extend((0..parameters).map(|_| Step::EndFunction));
        Ok(())
    }

    /// Operands between operators that bind at least so tightly.
    fn expression(&mut self, least: u8) -> Result<(), Error> {
        self.operand()?;
        loop {
            let (strength, step) = match self.token {
                "<" | "==" => (1, Step::Compare),
                "+" | "-" => (2, Step::Calculate),
                "*" => (3, Step::Calculate),
                _ => return Ok(()),
            };
            if strength < least {
                return Ok(());
            }
            self.advance();
            self.expression(strength + 1)?;
            self.steps.push(step);
        }
    }

    fn operand(&mut self) -> Result<(), Error> {
        match self.token {
            "if" => {
                self.advance();
                self.expression(1)?;
                self.steps.push(Step::Condition);
                self.expect("then")?;
                self.expression(1)?;
                self.expect("else")?;
                self.expression(1)?;
                self.steps.push(Step::Branches);
            }
            "fun" => {
                self.advance();
                self.function("->")?;
            }
            "let" => {
                self.advance();
                let binding = Binding { is_recursive: self.is_at("rec"), name: self.name()? };
                self.steps.push(Step::BeginBinding(binding));
                self.function("=")?;
                self.steps.push(Step::EndBinding(binding));
                self.expect("in")?;
                self.expression(1)?;
                self.steps.push(Step::EndScope);
            }
            _ => {
                self.atom()?;
                while self.token == "(" || self.token.starts_with(is_letter) && self.is_operand() {
                    self.atom()?;
                    self.steps.push(Step::Apply);
                }
            }
        }
        Ok(())
    }

    fn is_operand(&self) -> bool {
        matches!(self.token, "true" | "false") || !KEYWORDS.contains(&self.token)
    }

    fn atom(&mut self) -> Result<(), Error> {
        let step = match self.advance() {
            "true" | "false" => Step::Boolean,
            "(" => {
                self.expression(1)?;
                if self.is_at(",") {
                    self.expression(1)?;
                    self.steps.push(Step::Pair);
                }
                return self.expect(")");
            }
            name if is_name(name) => Step::Variable(name),
            number if !number.is_empty() && number.bytes().all(|byte| byte.is_ascii_digit()) => Step::Integer,
            other => return Err(format!("an expression should stand in the place of `{other}`").into()),
        };
        self.steps.push(step);
        Ok(())
    }
}

/// The types of `fst` and `snd`.
fn declare_parts(inference: &mut Inference) {
    let (first, second) = (Rc::new(Type::Any(0)), Rc::new(Type::Any(1)));
    let pair = Rc::new(Type::Pair(first.clone(), second.clone()));
    inference.declared.insert("fst", Rc::new(Type::Function(pair.clone(), first)));
    inference.declared.insert("snd", Rc::new(Type::Function(pair, second)));
}

fn run() -> Result<(), Error> {
    let mut text = String::new();
    io::stdin().read_to_string(&mut text)?;
    let mut parser = Parser { tokens: Tokens { rest: &text }, token: "", steps: Vec::new() };
    let (mut inference, mut out) = (Inference::default(), String::new());
    declare_parts(&mut inference);
    parser.advance();
    while !parser.token.is_empty() {
        if parser.is_at(";") {
            continue;
        }
        let binding = parser.declaration()?;
        let tree = inference.infer(binding, &parser.steps).map_err(|error| format!("{}: {error}", binding.name))?;
        parser.steps.clear();
        out.push_str(binding.name);
        out.push_str(" : ");
        write_type(&mut out, &tree);
        out.push('\n');
        inference.declared.insert(binding.name, tree);
    }
    Ok(io::stdout().write_all(out.as_bytes())?)
}

fn main() -> ExitCode {
    let thread = std::thread::Builder::new().stack_size(STACK).spawn(run).expect("a thread");
    match thread.join().expect("an end") {
        Ok(()) => ExitCode::SUCCESS,
        Err(error) => {
            eprintln!("types: {error}");
            ExitCode::from(1)
        }
    }
}
