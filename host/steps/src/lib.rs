//! The steps of a run as bytes and as text.
//!
//! A step is ten little-endian 64-bit words: kind, qubit, eight more. In the text form a line has
//! one step or none:
//!
//! ```text
//! gate 0  1 0  1 0  -1 0  1 0     # qubit, then re and im of s0, f0, s1 and f1
//! measure 0 1 1.0                 # qubit, outcome, scale
//! premeasure 0                    # qubit
//! step 4 0  1 2 3 4 5 6 7 0xff    # kind, qubit and the other words as they are
//! ```
use butrask_calls::{call_of_step, step_kind, to_bytes, to_words, Call, Step};
use butrask_calls::{GATE_WORDS, STEP_WORDS};
use std::fmt::{self, Display, Formatter};
use std::str::SplitAsciiWhitespace;

/// The number of bytes in a step.
pub const STEP_BYTES: usize = 8 * STEP_WORDS;

/// The words of a gate, in their order.
const GATE_PARTS: [&str; GATE_WORDS] = [
    "re of s0", "im of s0", "re of f0", "im of f0", "re of s1", "im of s1", "re of f1", "im of f1",
];

/// The first thing that is wrong with a text.
#[derive(Clone, Debug, PartialEq, Eq)]
pub struct Error {
    /// The line, from 1.
    pub line: usize,
    pub expected: String,
    pub found: String,
}

impl Display for Error {
    fn fmt(&self, f: &mut Formatter<'_>) -> fmt::Result {
        write!(
            f,
            "{}: expected {}, found {}",
            self.line, self.expected, self.found
        )
    }
}

impl std::error::Error for Error {}

/// The bytes of the steps that a text has. Lines end in LF or CR LF; a byte order mark at the start
/// is passed over.
pub fn encode(text: &[u8]) -> Result<Vec<u8>, Error> {
    let text = text.strip_prefix(b"\xef\xbb\xbf").unwrap_or(text);
    let mut bytes = Vec::new();
    for (index, line) in text.split(|&b| b == b'\n').enumerate() {
        let line = line.strip_suffix(b"\r").unwrap_or(line);
        // What is not UTF-8 is replaced by a character that no field has, so it is refused outside
        // a comment.
        let step =
            step_of_line(&String::from_utf8_lossy(line)).map_err(|Wrong { expected, found }| {
                Error {
                    line: index + 1,
                    expected,
                    found,
                }
            })?;
        bytes.extend(to_bytes(step.as_slice().as_flattened()));
    }
    Ok(bytes)
}

/// The text of the whole steps in `bytes`, and the number of stray bytes after them.
pub fn decode(bytes: &[u8]) -> (String, usize) {
    let mut text = String::new();
    let stray = bytes.len() % STEP_BYTES;
    let words = to_words(&bytes[..bytes.len() - stray]);
    let (steps, _) = words.as_chunks();
    for step in steps {
        text += &line_of_step(step);
        text.push('\n');
    }
    (text, stray)
}

/// What is wrong with a line.
struct Wrong {
    expected: String,
    found: String,
}

/// The fields of a line that were not read yet.
struct Fields<'a>(SplitAsciiWhitespace<'a>);

impl Fields<'_> {
    /// The next field, read by `read`.
    fn next<T>(&mut self, expected: &str, read: impl Fn(&str) -> Option<T>) -> Result<T, Wrong> {
        let field = self.0.next();
        field.and_then(read).ok_or_else(|| Wrong {
            expected: expected.to_string(),
            found: field.map_or("the end of the line".to_string(), quoted),
        })
    }

    fn word(&mut self, name: &str) -> Result<u64, Wrong> {
        let expected =
            format!("{name}, a whole number below 2^64 in decimal or as 0x and up to 16 digits");
        self.next(&expected, word)
    }

    fn float(&mut self, name: &str) -> Result<u64, Wrong> {
        let expected = format!("{name}, a float in decimal or its bits as 0x and up to 16 digits");
        self.next(&expected, float)
    }

    fn end(mut self) -> Result<(), Wrong> {
        match self.0.next() {
            None => Ok(()),
            Some(field) => Err(Wrong {
                expected: "the end of the line".to_string(),
                found: quoted(field),
            }),
        }
    }
}

/// A field as an error shows it: what cannot be seen is escaped, what is long is cut.
fn quoted(field: &str) -> String {
    const SHOWN: usize = 40;
    let shown: String = field.chars().take(SHOWN).collect();
    let cut = if shown.len() < field.len() { ".." } else { "" };
    format!("`{}{cut}`", shown.escape_debug())
}

/// The step of a line, if there is one on it.
fn step_of_line(line: &str) -> Result<Option<Step>, Wrong> {
    // A comment would hide all lines after it if they ended in CR alone.
    if line.contains('\r') {
        return Err(Wrong {
            expected: "lines that end in LF or CR LF".to_string(),
            found: "a CR inside a line".to_string(),
        });
    }
    let line = line.split('#').next().unwrap_or("");
    let mut fields = Fields(line.split_ascii_whitespace());
    if fields.0.clone().next().is_none() {
        return Ok(None);
    }
    let mut step: Step = [0; STEP_WORDS];
    match fields.next("gate, measure, premeasure or step", form)? {
        Form::Gate => {
            step[0] = step_kind::GATE;
            step[1] = fields.word("the qubit")?;
            for (word, name) in step[2..].iter_mut().zip(GATE_PARTS) {
                *word = fields.float(name)?;
            }
        }
        Form::Measure => {
            step[0] = step_kind::MEASURE;
            step[1] = fields.word("the qubit")?;
            step[2] = fields.next("the outcome, 0 or 1", |f| word(f).filter(|&v| v <= 1))?;
            step[3] = fields.float("the scale")?;
        }
        Form::Premeasure => {
            step[0] = step_kind::PREMEASURE;
            step[1] = fields.word("the qubit")?;
        }
        Form::Raw => {
            step[0] = fields.word("the kind")?;
            step[1] = fields.word("the qubit")?;
            for (i, word) in step[2..].iter_mut().enumerate() {
                *word = fields.word(&format!("word {i}"))?;
            }
        }
    }
    fields.end()?;
    Ok(Some(step))
}

/// The forms of a step's line.
enum Form {
    Gate,
    Measure,
    Premeasure,
    Raw,
}

fn form(field: &str) -> Option<Form> {
    match field {
        "gate" => Some(Form::Gate),
        "measure" => Some(Form::Measure),
        "premeasure" => Some(Form::Premeasure),
        "step" => Some(Form::Raw),
        _ => None,
    }
}

/// A word after its 0x.
fn hexadecimal(digits: &str) -> Option<u64> {
    let all_digits = digits.bytes().all(|b| b.is_ascii_hexdigit());
    if all_digits && digits.len() <= 16 {
        u64::from_str_radix(digits, 16).ok()
    } else {
        None
    }
}

/// A word in decimal or as 0x and digits. No sign is taken.
fn word(field: &str) -> Option<u64> {
    if let Some(digits) = field.strip_prefix("0x") {
        hexadecimal(digits)
    } else if field.bytes().all(|b| b.is_ascii_digit()) {
        field.parse().ok()
    } else {
        None
    }
}

/// The bits of a float in decimal, as Rust reads it, or given as 0x and digits.
fn float(field: &str) -> Option<u64> {
    if let Some(digits) = field.strip_prefix("0x") {
        return hexadecimal(digits);
    }
    let value: f64 = field.parse().ok()?;
    // Rust leaves the bits of `nan` open.
    Some(if value.is_nan() {
        0x7ff8_0000_0000_0000 | u64::from(field.starts_with('-')) << 63
    } else {
        value.to_bits()
    })
}

/// The line of a step, without its end. What stands for no call is written as it is.
fn line_of_step(step: &Step) -> String {
    match call_of_step(step) {
        Some(Call::PerformU4 { qubit, gate }) => {
            let parts = gate.words().map(float_text);
            let (amplitudes, _) = parts.as_chunks();
            let amplitudes = amplitudes.iter().map(|[re, im]| format!("  {re} {im}"));
            let amplitudes: String = amplitudes.collect();
            format!("gate {}{amplitudes}", word_text(qubit))
        }
        Some(Call::Measure {
            qubit,
            outcome,
            scale,
        }) => {
            let (qubit, scale) = (word_text(qubit), float_text(scale));
            format!("measure {qubit} {} {scale}", u8::from(outcome))
        }
        Some(Call::Premeasure { qubit }) => format!("premeasure {}", word_text(qubit)),
        _ => {
            let words = step.iter().map(|&word| format!(" {}", word_text(word)));
            format!("step{}", words.collect::<String>())
        }
    }
}

/// A small word in decimal, a larger one as 0x and 16 digits.
fn word_text(word: u64) -> String {
    if word < 1 << 16 {
        word.to_string()
    } else {
        format!("0x{word:016x}")
    }
}

/// The shortest decimal that is read as these bits; those of a NaN as 0x and 16 digits.
fn float_text(bits: u64) -> String {
    let value = f64::from_bits(bits);
    if value.is_nan() {
        return format!("0x{bits:016x}");
    }
    // The form for debugging has an exponent where plain digits would be many.
    let text = format!("{value:?}");
    text.strip_suffix(".0").unwrap_or(&text).to_string()
}
