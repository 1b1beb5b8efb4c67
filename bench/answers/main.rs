//! Writes answers of the program by plain loops: what a proved answer is measured against.
//!
//!     main KIND FILE TIMES
//!
//! FILE holds one answer of the program. It is taken apart once, into a table of what it shows, and
//! written TIMES times from that table, each time into the same room, by tables of digits. A trace
//! is written in blocks of 256 lines, as the program does. KIND is `image`, `mem`, `regs`, `screen`,
//! `dis`, `syms`, `list`, `trace` or `trace-json`; of `against`, the lines that `trace` writes are
//! compared with those of FILE, and nothing is written.

use std::env;
use std::fs::{self, File};
use std::io::{self, Write};
use std::os::fd::AsFd;
use std::process::ExitCode;

/// The two hexadecimal digits of each byte.
static PAIRS: [[u8; 2]; 256] = {
    let digits = b"0123456789abcdef";
    let mut pairs = [[0; 2]; 256];
    let mut byte = 0;
    while byte < 256 {
        pairs[byte] = [digits[byte / 16], digits[byte % 16]];
        byte += 1;
    }
    pairs
};

fn push_byte(out: &mut Vec<u8>, byte: u8) {
    out.extend_from_slice(&PAIRS[usize::from(byte)]);
}

fn push_word(out: &mut Vec<u8>, word: u16) {
    let [high, low] = word.to_be_bytes();
    let ([a, b], [c, d]) = (PAIRS[usize::from(high)], PAIRS[usize::from(low)]);
    out.extend_from_slice(&[a, b, c, d]);
}

/// Many bytes in hexadecimal, by arithmetic, of which the compiler makes vectors.
fn push_hex(out: &mut Vec<u8>, bytes: &[u8]) {
    let digit = |value: u8| value + b'0' + if value > 9 { 39 } else { 0 };
    let start = out.len();
    out.resize(start + 2 * bytes.len(), 0);
    for (pair, byte) in out[start..].chunks_exact_mut(2).zip(bytes) {
        pair[0] = digit(byte / 16);
        pair[1] = digit(byte % 16);
    }
}

/// The two decimal digits of each number below 100.
static DECIMALS: [[u8; 2]; 100] = {
    let mut pairs = [[0; 2]; 100];
    let mut number = 0;
    while number < 100 {
        pairs[number] = [b'0' + (number / 10) as u8, b'0' + (number % 10) as u8];
        number += 1;
    }
    pairs
};

fn push_decimal(out: &mut Vec<u8>, number: u64) {
    let mut digits = [0; 20];
    let mut start = digits.len();
    let mut rest = number;
    while rest >= 10 {
        start -= 2;
        digits[start..start + 2].copy_from_slice(&DECIMALS[(rest % 100) as usize]);
        rest /= 100;
    }
    if rest > 0 || start == digits.len() {
        start -= 1;
        digits[start] = b'0' + rest as u8;
    }
    out.extend_from_slice(&digits[start..]);
}

fn push_signed(out: &mut Vec<u8>, number: i64) {
    if number < 0 {
        out.push(b'-');
    }
    push_decimal(out, number.unsigned_abs());
}

/// An operand of an instruction.
#[derive(Clone, Copy)]
enum Operand {
    X,
    Y,
    Nibble,
    Byte,
    Address,
    Word(&'static str),
}

use Operand::{Address, Byte, Nibble, Word, X, Y};

/// A name, its operands, and the word without them.
type Form = (&'static str, &'static [Operand], u16);

/// The forms in which words are shown; of those that have the same word the first one.
static FORMS: &[Form] = &[
    ("SCD", &[Nibble], 0x00c0),
    ("CLS", &[], 0x00e0),
    ("RET", &[], 0x00ee),
    ("SCR", &[], 0x00fb),
    ("SCL", &[], 0x00fc),
    ("EXIT", &[], 0x00fd),
    ("LOW", &[], 0x00fe),
    ("HIGH", &[], 0x00ff),
    ("JP", &[Address], 0x1000),
    ("CALL", &[Address], 0x2000),
    ("SE", &[X, Byte], 0x3000),
    ("SNE", &[X, Byte], 0x4000),
    ("SE", &[X, Y], 0x5000),
    ("LD", &[X, Byte], 0x6000),
    ("ADD", &[X, Byte], 0x7000),
    ("LD", &[X, Y], 0x8000),
    ("OR", &[X, Y], 0x8001),
    ("AND", &[X, Y], 0x8002),
    ("XOR", &[X, Y], 0x8003),
    ("ADD", &[X, Y], 0x8004),
    ("SUB", &[X, Y], 0x8005),
    ("SHR", &[X], 0x8006),
    ("SHR", &[X, Y], 0x8006),
    ("SUBN", &[X, Y], 0x8007),
    ("SHL", &[X], 0x800e),
    ("SHL", &[X, Y], 0x800e),
    ("SNE", &[X, Y], 0x9000),
    ("LD", &[Word("I"), Address], 0xa000),
    ("JP", &[Word("V0"), Address], 0xb000),
    ("RND", &[X, Byte], 0xc000),
    ("DRW", &[X, Y, Nibble], 0xd000),
    ("SKP", &[X], 0xe09e),
    ("SKNP", &[X], 0xe0a1),
    ("LD", &[X, Word("DT")], 0xf007),
    ("LD", &[X, Word("K")], 0xf00a),
    ("LD", &[Word("DT"), X], 0xf015),
    ("LD", &[Word("ST"), X], 0xf018),
    ("ADD", &[Word("I"), X], 0xf01e),
    ("LD", &[Word("F"), X], 0xf029),
    ("LD", &[Word("HF"), X], 0xf030),
    ("LD", &[Word("B"), X], 0xf033),
    ("LD", &[Word("[I]"), X], 0xf055),
    ("LD", &[X, Word("[I]")], 0xf065),
    ("LD", &[Word("R"), X], 0xf075),
    ("LD", &[X, Word("R")], 0xf085),
];

/// The form of each word, if it has one.
struct Shown {
    forms: Vec<Option<&'static Form>>,
}

impl Shown {
    fn new() -> Shown {
        let mut forms = vec![None; 0x1_0000];
        for form in FORMS.iter().rev() {
            let fields = form
                .1
                .iter()
                .fold(0, |fields, operand| fields | field(*operand));
            for word in 0..=u16::MAX {
                if word & !fields == form.2 {
                    forms[usize::from(word)] = Some(form);
                }
            }
        }
        Shown { forms }
    }

    /// The source text of a word.
    fn push(&self, out: &mut Vec<u8>, word: u16) {
        let Some((name, operands, _)) = self.forms[usize::from(word)] else {
            out.extend_from_slice(b"DW #");
            return push_word(out, word);
        };
        out.extend_from_slice(name.as_bytes());
        let mut before: &[u8] = b" ";
        for operand in *operands {
            out.extend_from_slice(before);
            push_operand(out, *operand, word);
            before = b", ";
        }
    }
}

/// The bits of a word in which an operand stands.
fn field(operand: Operand) -> u16 {
    match operand {
        X => 0x0f00,
        Y => 0x00f0,
        Nibble => 0x000f,
        Byte => 0x00ff,
        Address => 0x0fff,
        Word(_) => 0,
    }
}

fn push_operand(out: &mut Vec<u8>, operand: Operand, word: u16) {
    let register = |number: u16| [b'V', b"0123456789ABCDEF"[usize::from(number % 16)]];
    let [high, low] = word.to_be_bytes();
    match operand {
        X => out.extend_from_slice(&register(word / 256)),
        Y => out.extend_from_slice(&register(word / 16)),
        Nibble => push_decimal(out, u64::from(word % 16)),
        Byte => {
            let [a, b] = PAIRS[usize::from(low)];
            out.extend_from_slice(&[b'#', a, b]);
        }
        Address => {
            let ([_, a], [b, c]) = (PAIRS[usize::from(high)], PAIRS[usize::from(low)]);
            out.extend_from_slice(&[b'#', a, b, c]);
        }
        Word(text) => out.extend_from_slice(text.as_bytes()),
    }
}

/// An answer that was taken apart.
trait Answer {
    fn push(&self, out: &mut Vec<u8>);
}

/// Why an answer can't be taken apart: it isn't of the kind that was named.
type Parsed<T> = Option<T>;

fn number<T>(text: &str, base: u32, from: impl Fn(u64) -> T) -> Parsed<T> {
    u64::from_str_radix(text, base).ok().map(from)
}

fn hex_byte(text: &str) -> Parsed<u8> {
    number(text, 16, |value| value as u8)
}

fn hex_word(text: &str) -> Parsed<u16> {
    number(text, 16, |value| value as u16)
}

/// The answer to `image` and `mem`.
struct Bytes {
    bytes: Vec<u8>,
}

impl Bytes {
    fn read(text: &str) -> Parsed<Bytes> {
        let digits = text.trim_end();
        let places = (0..digits.len()).step_by(2);
        let bytes = places.map(|place| hex_byte(digits.get(place..place + 2)?));
        Some(Bytes {
            bytes: bytes.collect::<Parsed<_>>()?,
        })
    }
}

impl Answer for Bytes {
    fn push(&self, out: &mut Vec<u8>) {
        push_hex(out, &self.bytes);
        out.push(b'\n');
    }
}

/// The answer to `regs`.
struct Registers {
    registers: [u8; 16],
    pc: u16,
    index: u16,
    delay: u8,
    sound: u8,
    draws: u64,
    size: Vec<u8>,
    state: Vec<u8>,
    flags: Vec<u8>,
    stack: Vec<u16>,
}

impl Registers {
    fn read(text: &str) -> Parsed<Registers> {
        let mut lines = text.lines();
        let registers: Vec<u8> = lines
            .next()?
            .split(' ')
            .skip(1)
            .map(hex_byte)
            .collect::<Parsed<_>>()?;
        let state: Vec<&str> = lines.next()?.split(' ').collect();
        let last: Vec<&str> = lines.next()?.split(' ').collect();
        let stack = last.iter().position(|word| *word == "stack")?;
        Some(Registers {
            registers: registers.try_into().ok()?,
            pc: hex_word(state.get(1)?)?,
            index: hex_word(state.get(3)?)?,
            delay: hex_byte(state.get(5)?)?,
            sound: hex_byte(state.get(7)?)?,
            draws: state.get(9)?.parse().ok()?,
            size: state.get(10)?.as_bytes().to_vec(),
            state: state.get(11)?.as_bytes().to_vec(),
            flags: last[1..stack]
                .iter()
                .map(|flag| hex_byte(flag))
                .collect::<Parsed<_>>()?,
            stack: last[stack + 1..]
                .iter()
                .map(|frame| hex_word(frame))
                .collect::<Parsed<_>>()?,
        })
    }
}

impl Answer for Registers {
    fn push(&self, out: &mut Vec<u8>) {
        out.push(b'v');
        for byte in &self.registers {
            out.push(b' ');
            push_byte(out, *byte);
        }
        out.extend_from_slice(b"\npc ");
        push_word(out, self.pc);
        out.extend_from_slice(b" i ");
        push_word(out, self.index);
        out.extend_from_slice(b" dt ");
        push_byte(out, self.delay);
        out.extend_from_slice(b" st ");
        push_byte(out, self.sound);
        out.extend_from_slice(b" draws ");
        push_decimal(out, self.draws);
        out.push(b' ');
        out.extend_from_slice(&self.size);
        out.push(b' ');
        out.extend_from_slice(&self.state);
        out.extend_from_slice(b"\nflags");
        for flag in &self.flags {
            out.push(b' ');
            push_byte(out, *flag);
        }
        out.extend_from_slice(b" stack");
        for frame in &self.stack {
            out.push(b' ');
            push_word(out, *frame);
        }
        out.push(b'\n');
    }
}

/// The answer to `screen`.
struct Screen {
    size: Vec<u8>,
    rows: [u128; 64],
}

impl Screen {
    fn read(text: &str) -> Parsed<Screen> {
        let mut lines = text.lines();
        let size = lines.next()?.as_bytes().to_vec();
        let mut rows = [0; 64];
        for line in lines.take_while(|line| *line != ".") {
            let (row, points) = line.split_once(' ')?;
            *rows.get_mut(row.parse::<usize>().ok()?)? = u128::from_str_radix(points, 16).ok()?;
        }
        Some(Screen { size, rows })
    }
}

impl Answer for Screen {
    fn push(&self, out: &mut Vec<u8>) {
        out.extend_from_slice(&self.size);
        out.push(b'\n');
        for (number, row) in self.rows.iter().enumerate().filter(|(_, row)| **row != 0) {
            let [tens, ones] = DECIMALS[number];
            out.extend_from_slice(&[tens, ones, b' ']);
            push_hex(out, &row.to_be_bytes());
            out.push(b'\n');
        }
        out.extend_from_slice(b".\n");
    }
}

/// The answer to `dis`.
struct Words {
    shown: Shown,
    start: u16,
    words: Vec<u16>,
}

impl Words {
    fn read(text: &str) -> Parsed<Words> {
        let lines = text.lines().take_while(|line| *line != ".");
        let words = lines.map(|line| hex_word(line.get(5..9)?));
        Some(Words {
            shown: Shown::new(),
            start: hex_word(text.get(..4)?)?,
            words: words.collect::<Parsed<_>>()?,
        })
    }
}

impl Answer for Words {
    fn push(&self, out: &mut Vec<u8>) {
        for (place, word) in self.words.iter().enumerate() {
            push_word(out, self.start + 2 * place as u16);
            out.push(b' ');
            push_word(out, *word);
            out.push(b' ');
            self.shown.push(out, *word);
            out.push(b'\n');
        }
        out.extend_from_slice(b".\n");
    }
}

/// The answer to `syms`: names, values, and the numbers of lines.
struct Symbols {
    symbols: Vec<(Vec<u8>, i64, u64)>,
}

impl Symbols {
    fn read(text: &str) -> Parsed<Symbols> {
        let lines = text.lines().take_while(|line| *line != ".");
        let symbols = lines.map(|line| {
            let mut words = line.split(' ');
            let name = words.next()?.as_bytes().to_vec();
            Some((
                name,
                words.next()?.parse().ok()?,
                words.next()?.parse().ok()?,
            ))
        });
        Some(Symbols {
            symbols: symbols.collect::<Parsed<_>>()?,
        })
    }
}

impl Answer for Symbols {
    fn push(&self, out: &mut Vec<u8>) {
        for (name, value, line) in &self.symbols {
            out.extend_from_slice(name);
            out.push(b' ');
            push_signed(out, *value);
            out.push(b' ');
            push_decimal(out, *line);
            out.push(b'\n');
        }
        out.extend_from_slice(b".\n");
    }
}

/// What stands between the address and the text of a line of a listing.
enum Field {
    Value(i64),
    Bytes(Vec<u8>),
    Text(Vec<u8>),
}

/// A line of a listing.
struct Listed {
    address: Option<u16>,
    field: Field,
    more: u8,
    text: Vec<u8>,
}

impl Listed {
    fn read(line: &str) -> Parsed<Listed> {
        let field = line.get(10..22)?.trim_end();
        let field = match field.strip_prefix('=') {
            Some(value) => Field::Value(value.parse().ok()?),
            None => match Bytes::read(field) {
                Some(bytes) => Field::Bytes(bytes.bytes),
                None => Field::Text(field.as_bytes().to_vec()),
            },
        };
        Some(Listed {
            address: hex_word(line.get(5..9)?),
            field,
            more: *line.as_bytes().get(22)?,
            text: line.get(24..)?.as_bytes().to_vec(),
        })
    }

    fn push_field(&self, out: &mut Vec<u8>) {
        match &self.field {
            Field::Value(value) => {
                out.push(b'=');
                push_signed(out, *value);
            }
            Field::Bytes(bytes) => push_hex(out, bytes),
            Field::Text(text) => out.extend_from_slice(text),
        }
    }
}

/// The answer to `list`.
struct Listing {
    lines: Vec<Listed>,
}

impl Listing {
    fn read(text: &str) -> Parsed<Listing> {
        let lines = text
            .lines()
            .take_while(|line| *line != ".")
            .map(Listed::read);
        Some(Listing {
            lines: lines.collect::<Parsed<_>>()?,
        })
    }
}

impl Answer for Listing {
    fn push(&self, out: &mut Vec<u8>) {
        for (place, line) in self.lines.iter().enumerate() {
            let [a, b] = DECIMALS[(place + 1) / 100];
            let [c, d] = DECIMALS[(place + 1) % 100];
            let mut number = [a, b, c, d];
            for digit in number.iter_mut().take_while(|digit| **digit == b'0') {
                *digit = b' ';
            }
            out.extend_from_slice(&number);
            out.push(b' ');
            match line.address {
                Some(address) => push_word(out, address),
                None => out.extend_from_slice(b"----"),
            }
            out.push(b' ');
            let end = out.len() + 12;
            line.push_field(out);
            out.resize(end, b' ');
            out.extend_from_slice(&[line.more, b' ']);
            out.extend_from_slice(&line.text);
            out.push(b'\n');
        }
        out.extend_from_slice(b".\n");
    }
}

/// A state of a trace.
struct State {
    pc: u16,
    word: u16,
    registers: [u8; 16],
    index: u16,
    delay: u8,
    sound: u8,
    depth: u8,
    draws: u32,
}

impl State {
    fn read(line: &str) -> Parsed<State> {
        let mut fields = line.split(' ').skip(1);
        let pc = hex_word(fields.next()?)?;
        let word = hex_word(fields.next()?)?;
        let mut registers = [0; 16];
        for register in &mut registers {
            *register = hex_byte(fields.next()?)?;
        }
        Some(State {
            pc,
            word,
            registers,
            index: hex_word(fields.next()?)?,
            delay: hex_byte(fields.next()?)?,
            sound: hex_byte(fields.next()?)?,
            depth: fields.next()?.parse().ok()?,
            draws: fields.next()?.parse().ok()?,
        })
    }
}

/// A trace from step 0 on, with the columns that a trace has without the sums.
struct Trace {
    shown: Shown,
    states: Vec<State>,
    end: Vec<u8>,
}

/// How many lines are written at once.
const BLOCK_LINES: usize = 256;

const HEADER: &[u8] =
    b"# step pc word v0 v1 v2 v3 v4 v5 v6 v7 v8 v9 va vb vc vd ve vf i dt st depth draws text\n";

impl Trace {
    fn read(text: &str) -> Parsed<Trace> {
        let states = text
            .lines()
            .skip(1)
            .map(State::read)
            .collect::<Parsed<Vec<_>>>()?;
        let end = text.trim_end().rsplit(' ').next()?.as_bytes().to_vec();
        Some(Trace {
            shown: Shown::new(),
            states,
            end,
        })
    }

    fn push_text(&self, out: &mut Vec<u8>, step: usize) {
        if step + 1 == self.states.len() {
            out.extend_from_slice(&self.end);
        } else {
            self.shown.push(out, self.states[step].word);
        }
    }

    /// The line of a step, without a newline.
    fn push_fields(&self, out: &mut Vec<u8>, step: usize) {
        let state = &self.states[step];
        push_decimal(out, step as u64);
        out.push(b' ');
        push_word(out, state.pc);
        out.push(b' ');
        push_word(out, state.word);
        for byte in &state.registers {
            let [a, b] = PAIRS[usize::from(*byte)];
            out.extend_from_slice(&[b' ', a, b]);
        }
        out.push(b' ');
        push_word(out, state.index);
        out.push(b' ');
        push_byte(out, state.delay);
        out.push(b' ');
        push_byte(out, state.sound);
        out.push(b' ');
        push_decimal(out, u64::from(state.depth));
        out.push(b' ');
        push_decimal(out, u64::from(state.draws));
        out.push(b' ');
        self.push_text(out, step);
    }

    /// The same as a JSON object.
    fn push_object(&self, out: &mut Vec<u8>, step: usize) {
        let state = &self.states[step];
        let mut push = |name: &[u8], number: u64| {
            out.extend_from_slice(name);
            push_decimal(out, number);
        };
        push(b"{\"step\":", step as u64);
        push(b",\"pc\":", u64::from(state.pc));
        push(b",\"word\":", u64::from(state.word));
        for (number, byte) in state.registers.iter().enumerate() {
            let digit = PAIRS[number][1];
            push(&[b',', b'"', b'v', digit, b'"', b':'], u64::from(*byte));
        }
        push(b",\"i\":", u64::from(state.index));
        push(b",\"dt\":", u64::from(state.delay));
        push(b",\"st\":", u64::from(state.sound));
        push(b",\"depth\":", u64::from(state.depth));
        push(b",\"draws\":", u64::from(state.draws));
        out.extend_from_slice(b",\"text\":\"");
        self.push_text(out, step);
        out.extend_from_slice(b"\"}");
    }

    fn write(&self, output: &mut File, times: usize, is_json: bool) -> io::Result<()> {
        let mut out = Vec::new();
        for _ in 0..times {
            if !is_json {
                out.extend_from_slice(HEADER);
            }
            for step in 0..self.states.len() {
                if is_json {
                    self.push_object(&mut out, step);
                } else {
                    self.push_fields(&mut out, step);
                }
                out.push(b'\n');
                if step % BLOCK_LINES == BLOCK_LINES - 1 {
                    output.write_all(&out)?;
                    out.clear();
                }
            }
            output.write_all(&out)?;
            out.clear();
        }
        Ok(())
    }

    /// Whether the lines are those of a text, letters' case ignored.
    fn is(&self, text: &[u8]) -> bool {
        let mut line = Vec::new();
        let mut theirs = text.split(|byte| *byte == b'\n').skip(1);
        (0..self.states.len()).all(|step| {
            line.clear();
            self.push_fields(&mut line, step);
            theirs
                .next()
                .is_some_and(|theirs| line.eq_ignore_ascii_case(theirs))
        })
    }
}

/// Writes an answer so many times.
fn repeat(answer: Parsed<impl Answer>, times: usize, output: &mut File) -> io::Result<()> {
    let answer = answer.ok_or(io::ErrorKind::InvalidData)?;
    let mut out = Vec::new();
    for _ in 0..times {
        out.clear();
        answer.push(&mut out);
        output.write_all(&out)?;
    }
    Ok(())
}

fn trace(kind: &str, text: &str, times: usize, output: &mut File) -> io::Result<()> {
    let trace = Trace::read(text).ok_or(io::ErrorKind::InvalidData)?;
    if kind != "against" {
        return trace.write(output, times, kind == "trace-json");
    }
    if (0..times).all(|_| trace.is(text.as_bytes())) {
        return Ok(());
    }
    Err(io::ErrorKind::InvalidData.into())
}

fn run(kind: &str, file: &str, times: usize) -> io::Result<()> {
    let text = fs::read_to_string(file)?;
    let mut output = File::from(io::stdout().as_fd().try_clone_to_owned()?);
    match kind {
        "image" | "mem" => repeat(Bytes::read(&text), times, &mut output),
        "regs" => repeat(Registers::read(&text), times, &mut output),
        "screen" => repeat(Screen::read(&text), times, &mut output),
        "dis" => repeat(Words::read(&text), times, &mut output),
        "syms" => repeat(Symbols::read(&text), times, &mut output),
        "list" => repeat(Listing::read(&text), times, &mut output),
        "trace" | "trace-json" | "against" => trace(kind, &text, times, &mut output),
        _ => Err(io::ErrorKind::InvalidInput.into()),
    }
}

fn main() -> ExitCode {
    let words: Vec<String> = env::args().skip(1).collect();
    let [kind, file, times] = words.as_slice() else {
        eprintln!("main KIND FILE TIMES");
        return ExitCode::from(2);
    };
    let Ok(times) = times.parse() else {
        eprintln!("main: TIMES is a number");
        return ExitCode::from(2);
    };
    match run(kind, file, times) {
        Ok(()) => ExitCode::SUCCESS,
        Err(error) => {
            eprintln!("main: {error}");
            ExitCode::from(1)
        }
    }
}
