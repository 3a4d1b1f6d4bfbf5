//! A spreadsheet over an incremental cache of queries, with plain values: a query is the key of its
//! memo in a hash table.
//!
//! It reads what `crates/queries_run` reads, caches in the same way, and writes the same answers, for
//! inputs without errors. At a wrong line it writes to standard error, and ends with status 1.
mod hash;

use hash::{HashMap, HashSet};
use std::fmt::{self, Display, Formatter, Write as _};
use std::io::{self, Read, Write};
use std::process::ExitCode;

type Error = Box<dyn std::error::Error>;

/// The place of a cell, its column and its row counted from zero.
#[derive(Clone, Copy, PartialEq, Eq, PartialOrd, Ord, Hash)]
struct Place {
    column: u32,
    row: u32,
}

#[derive(Clone, Copy, PartialEq, Eq, Hash)]
enum Function {
    Sum,
    Min,
    Max,
    Count,
}

/// A query: the value of a cell, or what a function makes of the block between two cells.
#[derive(Clone, Copy, PartialEq, Eq, Hash)]
enum Key {
    Cell(Place),
    Total(Function, Place, Place),
}

#[derive(Clone, Copy, PartialEq, Eq)]
enum CellError {
    Overflow,
    DivisionByZero,
}

#[derive(Clone, Copy, PartialEq, Eq)]
enum Value {
    Empty,
    Number(i64),
    Error(CellError),
}

/// The value of a query, or a query through which it leads back to itself.
#[derive(Clone, Copy)]
enum Answer {
    Value(Value),
    Cycle(Key),
}

#[derive(Clone, Copy, PartialEq)]
enum Operator {
    Add,
    Subtract,
    Multiply,
    Divide,
}

#[derive(Clone, Copy)]
enum Step {
    Literal(i64),
    Read(usize),
    Negate,
    Apply(Operator),
}

/// A formula: what it reads, and its steps, operands before what is done with them.
#[derive(Default)]
struct Formula {
    reads: Vec<Key>,
    steps: Vec<Step>,
}

impl Value {
    fn number(self) -> Result<i64, CellError> {
        match self {
            Value::Empty => Ok(0),
            Value::Number(number) => Ok(number),
            Value::Error(error) => Err(error),
        }
    }

    fn of(outcome: Result<i64, CellError>) -> Value {
        outcome.map_or_else(Value::Error, Value::Number)
    }
}

impl Operator {
    fn precedence(self) -> u8 {
        match self {
            Operator::Add | Operator::Subtract => 1,
            Operator::Multiply | Operator::Divide => 2,
        }
    }

    fn apply(self, left: i64, right: i64) -> Result<i64, CellError> {
        let exact = match self {
            Operator::Add => left.checked_add(right),
            Operator::Subtract => left.checked_sub(right),
            Operator::Multiply => left.checked_mul(right),
            Operator::Divide if right == 0 => return Err(CellError::DivisionByZero),
            Operator::Divide => left.checked_div(right),
        };
        exact.ok_or(CellError::Overflow)
    }
}

impl Formula {
    fn value(&self, values: &[Value]) -> Result<i64, CellError> {
        let mut stack = Vec::new();
        let pop = |stack: &mut Vec<i64>| stack.pop().expect("an operand");
        for step in &self.steps {
            let number = match step {
                Step::Literal(number) => *number,
                Step::Read(index) => values[*index].number()?,
                Step::Negate => pop(&mut stack).checked_neg().ok_or(CellError::Overflow)?,
                Step::Apply(operator) => {
                    let right = pop(&mut stack);
                    operator.apply(pop(&mut stack), right)?
                }
            };
            stack.push(number);
        }
        Ok(pop(&mut stack))
    }
}

/// What a function makes of values: empty ones are passed over, and without any number it is zero.
fn total(function: Function, values: &[Value]) -> Result<i64, CellError> {
    let mut so_far: Option<i128> = None;
    for value in values.iter().filter(|value| **value != Value::Empty) {
        let number = i128::from(value.number()?);
        so_far = Some(match (function, so_far) {
            (Function::Count, count) => count.unwrap_or(0) + 1,
            (_, None) => number,
            (Function::Sum, Some(sum)) => sum + number,
            (Function::Min, Some(least)) => least.min(number),
            (Function::Max, Some(greatest)) => greatest.max(number),
        });
    }
    i64::try_from(so_far.unwrap_or(0)).map_err(|_| CellError::Overflow)
}

/// What a query came to, the values that it read, and when it was last right.
struct Memo {
    answer: Answer,
    values: Vec<Value>,
    verified: u64,
}

/// A query that is being computed: what it reads, and the values that it has read so far.
struct Frame {
    key: Key,
    reads: Vec<Key>,
    values: Vec<Value>,
}

#[derive(Default)]
struct Spreadsheet {
    formulas: HashMap<Place, Formula>,
    /// The memo of each query. None once the formula of its cell has changed.
    memos: HashMap<Key, Option<Memo>>,
    revision: u64,
    computed: u64,
    verified: u64,
    reused: u64,
}

impl Spreadsheet {
    fn set(&mut self, place: Place, formula: Option<Formula>) {
        self.revision += 1;
        if let Some(memo) = self.memos.get_mut(&Key::Cell(place)) {
            *memo = None;
        }
        match formula {
            Some(formula) => self.formulas.insert(place, formula),
            None => self.formulas.remove(&place),
        };
    }

    fn reads(&self, key: Key) -> Vec<Key> {
        match key {
            Key::Cell(place) => self.formulas.get(&place).map_or(Vec::new(), |formula| formula.reads.clone()),
            Key::Total(_, first, last) => {
                let columns = first.column..=last.column;
                let cells = |column| (first.row..=last.row).map(move |row| Key::Cell(Place { column, row }));
                columns.flat_map(cells).collect()
            }
        }
    }

    fn give(&self, key: Key, values: &[Value]) -> Value {
        match key {
            Key::Cell(place) => match self.formulas.get(&place) {
                Some(formula) => Value::of(formula.value(values)),
                None => Value::Empty,
            },
            Key::Total(function, ..) => Value::of(total(function, values)),
        }
    }

    fn memo(&self, key: Key) -> Option<&Memo> {
        self.memos.get(&key)?.as_ref()
    }

    /// The answer of a memo of this revision.
    fn current(&self, key: Key) -> Option<Answer> {
        let memo = self.memo(key)?;
        (memo.verified == self.revision).then_some(memo.answer)
    }

    fn put(&mut self, key: Key, answer: Answer, values: Vec<Value>) {
        let verified = self.revision;
        self.memos.insert(key, Some(Memo { answer, values, verified }));
    }

    fn open(&self, key: Key) -> Frame {
        Frame { key, reads: self.reads(key), values: Vec::new() }
    }

    /// The answer to a query.
    fn answer(&mut self, root: Key) -> Answer {
        if let Some(answer) = self.current(root) {
            self.reused += 1;
            return answer;
        }
        // The queries that wait for a value, and those among them.
        let (mut path, mut waiting) = (Vec::<Frame>::new(), HashSet::default());
        let mut top = self.open(root);
        loop {
            let Some(key) = top.reads.get(top.values.len()).copied() else {
                let value = self.settle(top);
                let Some(mut last) = path.pop() else {
                    return Answer::Value(value);
                };
                waiting.remove(&last.key);
                last.values.push(value);
                top = last;
                continue;
            };
            let is_cycle = || top.key == key || waiting.contains(&key);
            match self.current(key).or_else(|| is_cycle().then_some(Answer::Cycle(key))) {
                Some(Answer::Value(value)) => {
                    self.reused += 1;
                    top.values.push(value);
                }
                Some(cycle) => {
                    for frame in path.iter().chain([&top]) {
                        self.put(frame.key, cycle, Vec::new());
                    }
                    return cycle;
                }
                None => {
                    waiting.insert(top.key);
                    path.push(top);
                    top = self.open(key);
                }
            }
        }
    }

    /// The value of a query that has read all its values: what it gave from them before, or else
    /// it is computed.
    fn settle(&mut self, frame: Frame) -> Value {
        let value = match self.memo(frame.key) {
            Some(Memo { answer: Answer::Value(value), values, .. }) if *values == frame.values => {
                let value = *value;
                self.verified += 1;
                value
            }
            _ => {
                self.computed += 1;
                self.give(frame.key, &frame.values)
            }
        };
        self.put(frame.key, Answer::Value(value), frame.values);
        value
    }

    fn places(&self) -> Vec<Place> {
        let mut places: Vec<Place> = self.formulas.keys().copied().collect();
        places.sort();
        places
    }

    /// Removes the queries that no cell with a formula needs, and tells how many.
    fn collect(&mut self) -> usize {
        let mut open: Vec<Key> = self.places().into_iter().map(Key::Cell).collect();
        let mut needed: HashSet<Key> = open.iter().copied().collect();
        while let Some(key) = open.pop() {
            let reads = self.reads(key).into_iter().filter(|read| self.memos.contains_key(read));
            open.extend(reads.filter(|read| needed.insert(*read)));
        }
        let before = self.memos.len();
        self.memos.retain(|key, _| needed.contains(key));
        before - self.memos.len()
    }
}

impl Display for Place {
    fn fmt(&self, f: &mut Formatter) -> fmt::Result {
        let letter = |digit: u32| char::from(b'A' + (digit % 26) as u8);
        for (first, step) in [(702, 676), (26, 26), (0, 1)] {
            if self.column >= first {
                f.write_char(letter((self.column - first) / step))?;
            }
        }
        write!(f, "{}", self.row + 1)
    }
}

impl Display for Answer {
    fn fmt(&self, f: &mut Formatter) -> fmt::Result {
        match self {
            Answer::Value(Value::Empty) => f.write_str("empty"),
            Answer::Value(Value::Number(number)) => number.fmt(f),
            Answer::Value(Value::Error(CellError::Overflow)) => f.write_str("overflow"),
            Answer::Value(Value::Error(CellError::DivisionByZero)) => f.write_str("division by zero"),
            Answer::Cycle(Key::Cell(place)) => write!(f, "cycle through {place}"),
            Answer::Cycle(Key::Total(function, first, last)) => {
                let name = ["SUM", "MIN", "MAX", "COUNT"][*function as usize];
                write!(f, "cycle through {name}({first}:{last})")
            }
        }
    }
}

/// What waits for its right operand, or for its closing parenthesis.
#[derive(Clone, Copy, PartialEq)]
enum Waiting {
    Opening,
    Negate,
    Apply(Operator),
}

/// The words of a line: letters and digits that stand together, and other characters each.
fn words(line: &str) -> impl Iterator<Item = &str> {
    let mut rest = line;
    std::iter::from_fn(move || {
        rest = rest.trim_start_matches([' ', '\t']);
        let length = rest.find(|c: char| !c.is_ascii_alphanumeric()).unwrap_or(rest.len());
        let (word, behind) = rest.split_at_checked(length.max(1))?;
        rest = behind;
        Some(word)
    })
}

fn place(word: &str) -> Result<Place, Error> {
    let (letters, digits) = word.split_at(word.find(|c: char| !c.is_ascii_uppercase()).unwrap_or(0));
    let column = letters.bytes().take(4).fold(0, |column, byte| column * 26 + u32::from(byte - b'A') + 1);
    let row = digits.parse().unwrap_or(0);
    match (1..=16384).contains(&column) && (1..=1048576).contains(&row) {
        true => Ok(Place { column: column - 1, row: row - 1 }),
        false => Err(format!("`{word}` is no cell").into()),
    }
}

/// The block in parentheses that is next.
fn block<'a>(words: &mut impl Iterator<Item = &'a str>) -> Result<(Place, Place), Error> {
    let mut next = || words.next().ok_or("the line ends within a block");
    let (_, one) = (next()?, place(next()?)?);
    let mut other = one;
    if next()? == ":" {
        other = place(next()?)?;
        next()?;
    }
    let first = Place { column: one.column.min(other.column), row: one.row.min(other.row) };
    let last = Place { column: one.column.max(other.column), row: one.row.max(other.row) };
    Ok((first, last))
}

/// The steps of all that waits and binds at least so tightly.
fn unwind(waiting: &mut Vec<Waiting>, steps: &mut Vec<Step>, precedence: u8) {
    while let Some(last) = waiting.last().copied() {
        match last {
            Waiting::Negate => steps.push(Step::Negate),
            Waiting::Apply(operator) if operator.precedence() >= precedence => steps.push(Step::Apply(operator)),
            _ => return,
        }
        waiting.pop();
    }
}

/// Adds the operand that begins with this word to a formula.
fn operand<'a>(formula: &mut Formula, word: &str, words: &mut impl Iterator<Item = &'a str>) -> Result<(), Error> {
    let function = match word {
        "SUM" => Some(Function::Sum),
        "MIN" => Some(Function::Min),
        "MAX" => Some(Function::Max),
        "COUNT" => Some(Function::Count),
        _ => None,
    };
    let step = match function {
        None if word.starts_with(|c: char| c.is_ascii_digit()) => Step::Literal(word.parse()?),
        None => {
            formula.reads.push(Key::Cell(place(word)?));
            Step::Read(formula.reads.len() - 1)
        }
        Some(function) => {
            let (first, last) = block(words)?;
            formula.reads.push(Key::Total(function, first, last));
            Step::Read(formula.reads.len() - 1)
        }
    };
    formula.steps.push(step);
    Ok(())
}

fn operator(word: &str) -> Result<Operator, Error> {
    match word {
        "+" => Ok(Operator::Add),
        "-" => Ok(Operator::Subtract),
        "*" => Ok(Operator::Multiply),
        "/" => Ok(Operator::Divide),
        _ => Err(format!("an operator should stand in the place of `{word}`").into()),
    }
}

fn formula<'a>(words: &mut impl Iterator<Item = &'a str>) -> Result<Formula, Error> {
    let (mut formula, mut waiting, mut wants_operand) = (Formula::default(), Vec::new(), true);
    while let Some(word) = words.next() {
        match (wants_operand, word) {
            (true, "-") => waiting.push(Waiting::Negate),
            (true, "(") => waiting.push(Waiting::Opening),
            (true, _) => {
                operand(&mut formula, word, words)?;
                wants_operand = false;
            }
            (false, ")") => {
                unwind(&mut waiting, &mut formula.steps, 0);
                waiting.pop().ok_or("there is no `(` to close")?;
            }
            (false, _) => {
                let operator = operator(word)?;
                unwind(&mut waiting, &mut formula.steps, operator.precedence());
                waiting.push(Waiting::Apply(operator));
                wants_operand = true;
            }
        }
    }
    unwind(&mut waiting, &mut formula.steps, 0);
    match wants_operand || !waiting.is_empty() {
        true => Err("the formula isn't whole".into()),
        false => Ok(formula),
    }
}

fn answer(sheet: &mut Spreadsheet, line: &str, out: &mut String) -> Result<(), Error> {
    let mut words = words(line);
    let Some(first) = words.next().filter(|word| *word != "#") else {
        return Ok(());
    };
    let mut argument = || words.next().ok_or("the line ends too early");
    match first {
        "stats" => {
            let Spreadsheet { computed, verified, reused, memos, .. } = sheet;
            let queries = memos.len();
            writeln!(out, "computed {computed}, verified {verified}, reused {reused}, queries {queries}")?;
        }
        "collect" => writeln!(out, "removed {} queries", sheet.collect())?,
        "clear" => sheet.set(place(argument()?)?, None),
        "show" => {
            let shown = match argument()? {
                "all" => sheet.places(),
                word => vec![place(word)?],
            };
            for place in shown {
                writeln!(out, "{place} = {}", sheet.answer(Key::Cell(place)))?;
            }
        }
        _ => {
            let place = place(first)?;
            match argument()? {
                "=" => sheet.set(place, Some(formula(&mut words)?)),
                word => return Err(format!("`=` should stand in the place of `{word}`").into()),
            }
        }
    }
    Ok(())
}

fn run() -> Result<(), Error> {
    let mut text = String::new();
    io::stdin().read_to_string(&mut text)?;
    let (mut sheet, mut out) = (Spreadsheet::default(), String::new());
    for (number, line) in text.lines().enumerate() {
        answer(&mut sheet, line, &mut out).map_err(|error| format!("line {}: {error}", number + 1))?;
    }
    Ok(io::stdout().write_all(out.as_bytes())?)
}

fn main() -> ExitCode {
    match run() {
        Ok(()) => ExitCode::SUCCESS,
        Err(error) => {
            eprintln!("queries: {error}");
            ExitCode::from(1)
        }
    }
}
