//! The two directions of the conversion, and what is refused.
mod common;
use butrask_steps::{decode, encode};
use common::{bytes, examples, Random};

const ONE: u64 = 0x3ff0_0000_0000_0000;
const MINUS_ONE: u64 = 0xbff0_0000_0000_0000;

/// Patterns at the edges: zeros, subnormals, the normal ones next to them, neighbours of 1, the
/// largest, infinities and NaNs, each with both signs.
fn special_floats() -> Vec<u64> {
    let sizes = [
        0,
        1,
        2,
        0x000f_ffff_ffff_ffff,
        0x0010_0000_0000_0000,
        0x0010_0000_0000_0001,
        0x3d70_0000_0000_0000,
        0x3fb9_9999_9999_999a,
        0x3fef_ffff_ffff_ffff,
        ONE,
        0x3ff0_0000_0000_0001,
        0x4024_0000_0000_0000,
        0x4340_0000_0000_0000,
        0x4341_c379_37e0_8000,
        0x7fef_ffff_ffff_ffff,
        0x7ff0_0000_0000_0000,
        0x7ff0_0000_0000_0001,
        0x7ff8_0000_0000_0000,
        0x7ff8_0000_0000_0001,
        0x7fff_ffff_ffff_ffff,
    ];
    sizes.iter().flat_map(|&n| [n, n | 1 << 63]).collect()
}

/// The words of a text's steps.
fn words(text: &str) -> Vec<u64> {
    let bytes = encode(text.as_bytes()).unwrap();
    assert_eq!(bytes.len() % 80, 0);
    let word = |b: &[u8]| b.iter().rev().fold(0, |w, &b| w << 8 | u64::from(b));
    bytes.chunks(8).map(word).collect()
}

/// The message of a text that is refused.
fn message(text: &[u8]) -> String {
    let shown = String::from_utf8_lossy(text).into_owned();
    encode(text).expect_err(&shown).to_string()
}

/// The text of steps without stray bytes.
fn text_of(words: &[u64]) -> String {
    let (text, stray) = decode(&bytes(words));
    assert_eq!(stray, 0);
    text
}

#[test]
fn each_form_has_its_words() {
    assert_eq!(
        words("gate 5  1 2  3 4  -1 -2  0.5 0x7"),
        [
            1,
            5,
            ONE,
            0x4000_0000_0000_0000,
            0x4008_0000_0000_0000,
            0x4010_0000_0000_0000,
            MINUS_ONE,
            0xc000_0000_0000_0000,
            0x3fe0_0000_0000_0000,
            7
        ]
    );
    assert_eq!(words("measure 63 1 1.0"), [2, 63, 1, ONE, 0, 0, 0, 0, 0, 0]);
    assert_eq!(
        words("measure 0x3f 0x0 -1"),
        [2, 63, 0, MINUS_ONE, 0, 0, 0, 0, 0, 0]
    );
    assert_eq!(words("premeasure 7"), [3, 7, 0, 0, 0, 0, 0, 0, 0, 0]);
    assert_eq!(
        words("step 9 0xA 1 2 3 4 5 6 0xffffffffffffffff 18446744073709551615"),
        [9, 10, 1, 2, 3, 4, 5, 6, u64::MAX, u64::MAX]
    );
}

#[test]
fn words_are_little_endian() {
    let encoded = encode(b"step 0x0102030405060708 1 0 0 0 0 0 0 0 0x1122334455667788").unwrap();
    assert_eq!(encoded.len(), 80);
    assert_eq!(encoded[..9], [8, 7, 6, 5, 4, 3, 2, 1, 1]);
    assert_eq!(
        encoded[72..],
        [0x88, 0x77, 0x66, 0x55, 0x44, 0x33, 0x22, 0x11]
    );
}

#[test]
fn each_step_has_its_line() {
    let half = 0x3fe0_0000_0000_0000;
    let lines: [(&[u64; 10], &str); 12] = [
        (
            &[1, 0, ONE, 0, ONE, 0, MINUS_ONE, 0, ONE, 0],
            "gate 0  1 0  1 0  -1 0  1 0",
        ),
        (
            &[1, 64, half, 1, 2, 3, 1 << 63, 0, 0, 0],
            "gate 64  0.5 5e-324  1e-323 1.5e-323  -0 0  0 0",
        ),
        (&[2, 3, 0, ONE, 0, 0, 0, 0, 0, 0], "measure 3 0 1"),
        (&[2, 3, 1, half, 0, 0, 0, 0, 0, 0], "measure 3 1 0.5"),
        (&[3, 65535, 0, 0, 0, 0, 0, 0, 0, 0], "premeasure 65535"),
        (
            &[3, 65536, 0, 0, 0, 0, 0, 0, 0, 0],
            "premeasure 0x0000000000010000",
        ),
        (&[0, 0, 0, 0, 0, 0, 0, 0, 0, 0], "step 0 0 0 0 0 0 0 0 0 0"),
        (&[4, 1, 2, 3, 4, 5, 6, 7, 8, 9], "step 4 1 2 3 4 5 6 7 8 9"),
        (
            &[2, 3, 2, ONE, 0, 0, 0, 0, 0, 0],
            "step 2 3 2 0x3ff0000000000000 0 0 0 0 0 0",
        ),
        (
            &[1 << 32 | 1, 0, 0, 0, 0, 0, 0, 0, 0, 0],
            "step 0x0000000100000001 0 0 0 0 0 0 0 0 0",
        ),
        (
            &[1 << 32 | 2, 0, 0, 0, 0, 0, 0, 0, 0, 0],
            "step 0x0000000100000002 0 0 0 0 0 0 0 0 0",
        ),
        (
            &[2, 0, 1 << 32, 0, 0, 0, 0, 0, 0, 0],
            "step 2 0 0x0000000100000000 0 0 0 0 0 0 0",
        ),
    ];
    for (words, line) in lines {
        assert_eq!(text_of(words), format!("{line}\n"));
    }
}

#[test]
fn a_word_that_must_be_zero_is_kept() {
    for (kind, first) in [(2, 4), (3, 2)] {
        for place in first..10 {
            for value in [1, 1 << 63] {
                let mut step = [0; 10];
                step[0] = kind;
                step[place] = value;
                let text = text_of(&step);
                assert!(text.starts_with(&format!("step {kind} 0 ")), "{text}");
                assert_eq!(words(&text), step);
            }
        }
    }
}

#[test]
fn examples_go_both_ways() {
    let examples = examples();
    let names: Vec<_> = examples.iter().map(|(name, _)| name.as_str()).collect();
    for name in ["refused", "superposition", "whole"] {
        assert!(names.contains(&name), "examples/{name}.txt is missing");
    }
    for (name, text) in &examples {
        let encoded = encode(text).unwrap_or_else(|e| panic!("examples/{name}.txt:{e}"));
        let source = std::str::from_utf8(text).unwrap();
        let lines = source
            .lines()
            .filter(|l| !l.is_empty() && !l.starts_with('#'));
        assert_eq!(encoded.len(), 80 * lines.count(), "{name}");
        let (decoded, stray) = decode(&encoded);
        assert_eq!(stray, 0, "{name}");
        assert_eq!(encode(decoded.as_bytes()).unwrap(), encoded, "{name}");
    }
}

#[test]
fn examples_have_what_they_promise() {
    let examples = examples();
    let steps = |name: &str| -> Vec<Vec<u64>> {
        let (_, text) = examples.iter().find(|(n, _)| n == name).unwrap();
        let words = words(std::str::from_utf8(text).unwrap());
        words.chunks(10).map(<[u64]>::to_vec).collect()
    };
    assert_eq!(
        steps("superposition"),
        [
            [1, 0, ONE, 0, ONE, 0, MINUS_ONE, 0, ONE, 0],
            [3, 0, 0, 0, 0, 0, 0, 0, 0, 0]
        ]
    );
    let whole = steps("whole");
    let gates: Vec<_> = whole.iter().filter(|s| s[0] == 1).collect();
    let qubits: std::collections::BTreeSet<_> = gates.iter().map(|s| s[1]).collect();
    assert!(qubits.len() > 2);
    let parts = || gates.iter().flat_map(|s| &s[2..]);
    assert!(parts().all(|&w| f64::from_bits(w).fract() == 0.0));
    assert!(whole.iter().any(|s| s[0] == 2));
    let refused = steps("refused");
    let is_nan = |&w: &u64| f64::from_bits(w).is_nan();
    assert!(refused.iter().any(|s| s[1] == 64));
    assert!(refused.iter().any(|s| s[0] > 3));
    assert!(refused.iter().any(|s| s[0] == 2 && s[2] > 1));
    assert!(refused
        .iter()
        .any(|s| s[0] == 1 && s[2..].iter().any(is_nan)));
}

/// A step's bytes: any at all, or words that make each form likely.
fn random_step(r: &mut Random, floats: &[u64]) -> Vec<u8> {
    let form = r.below(5);
    let mut step: [u64; 10] = std::array::from_fn(|_| match r.below(4) {
        0 => r.pick(floats),
        1 => r.below(1 << 20),
        _ => r.next(),
    });
    if form > 0 {
        step[0] = r.below(5);
    }
    if form > 1 {
        step[2] = r.below(3);
    }
    if form > 2 {
        step[4..].fill(0);
    }
    if form > 3 {
        step[2..4].fill(0);
    }
    if r.below(8) == 0 {
        step[r.below(10) as usize] = r.pick(&[1, 2, 1 << 16, 1 << 63]);
    }
    bytes(&step)
}

#[test]
fn random_bytes_go_both_ways() {
    let floats = special_floats();
    let mut r = Random(2026);
    let mut seen = std::collections::BTreeMap::new();
    for _ in 0..20_000 {
        let mut steps = Vec::new();
        for _ in 0..r.below(6) {
            steps.extend(random_step(&mut r, &floats));
        }
        let stray = r.below(80) as usize;
        let mut with_stray = steps.clone();
        with_stray.extend((0..stray).map(|_| r.next() as u8));
        let (text, left) = decode(&with_stray);
        assert_eq!(left, stray);
        assert_eq!(encode(text.as_bytes()).unwrap(), steps, "{text}");
        for line in text.lines() {
            let form = line.split(' ').next().unwrap().to_string();
            *seen.entry(form).or_insert(0) += 1;
        }
    }
    println!("{seen:?}");
    for form in ["gate", "measure", "premeasure", "step"] {
        assert!(
            seen.get(form) >= Some(&1000),
            "too few lines of the form {form}"
        );
    }
}

/// The text of a float.
fn float_text(bits: u64) -> String {
    let text = text_of(&[1, 0, bits, 0, 0, 0, 0, 0, 0, 0]);
    text.split_whitespace().nth(2).unwrap().to_string()
}

/// The bits of a float's text.
fn float_bits(text: &str) -> u64 {
    words(&format!("measure 0 0 {text}"))[3]
}

/// The number of digits from the first to the last that is not zero.
fn significant_digits(text: &str) -> usize {
    let digits = text.split('e').next().unwrap();
    let digits: String = digits.chars().filter(char::is_ascii_digit).collect();
    digits.trim_matches('0').len()
}

#[test]
fn floats_are_the_shortest_that_read_back() {
    let mut r = Random(7);
    let mut all = special_floats();
    for _ in 0..25_000 {
        all.push(r.next());
        all.push(((r.below(20_000) as f64 - 10_000.0) / 100.0).to_bits());
        all.push(r.next() >> r.below(64));
        all.push((r.below(1 << 53) as f64 * 10f64.powi(r.below(40) as i32 - 20)).to_bits());
    }
    let mut shorter_tried = 0;
    for bits in all {
        let text = float_text(bits);
        assert_eq!(float_bits(&text), bits, "{text}");
        let value = f64::from_bits(bits);
        assert_eq!(text.starts_with("0x"), value.is_nan(), "{text}");
        if value.is_finite() {
            assert!(text.len() <= 24, "{text}");
            let digits = significant_digits(&text);
            if digits > 1 {
                let shorter = format!("{value:.*e}", digits - 2);
                assert_ne!(
                    float_bits(&shorter),
                    bits,
                    "{text} is longer than {shorter}"
                );
                shorter_tried += 1;
            }
        }
    }
    assert!(shorter_tried > 75_000);
}

#[test]
fn floats_are_printed_plainly() {
    let texts = [
        (0, "0"),
        (1 << 63, "-0"),
        (ONE, "1"),
        (0x3fb9_9999_9999_999a, "0.1"),
        (0x4059_0000_0000_0000, "100"),
        (0x4270_0000_0000_0000, "1099511627776"),
        (0x7fef_ffff_ffff_ffff, "1.7976931348623157e308"),
        (1, "5e-324"),
        (0x7ff0_0000_0000_0000, "inf"),
        (0xfff0_0000_0000_0000, "-inf"),
        (0x7ff8_0000_0000_0000, "0x7ff8000000000000"),
        (0x7ff0_0000_0000_0001, "0x7ff0000000000001"),
        (0xffff_ffff_ffff_ffff, "0xffffffffffffffff"),
    ];
    for (bits, text) in texts {
        assert_eq!(float_text(bits), text);
    }
}

#[test]
fn floats_are_read_exactly() {
    let texts = [
        ("1", ONE),
        ("1.0", ONE),
        ("+1", ONE),
        ("10e-1", ONE),
        ("1E0", ONE),
        (".5", 0x3fe0_0000_0000_0000),
        ("5.", 0x4014_0000_0000_0000),
        ("-0", 1 << 63),
        ("0", 0),
        // Halfway between two floats, and above it by a digit far behind.
        ("9007199254740993", 0x4340_0000_0000_0000),
        (
            "9007199254740993.00000000000000000000000000000000000001",
            0x4340_0000_0000_0001,
        ),
        ("2.2250738585072011e-308", 0x000f_ffff_ffff_ffff),
        ("2e-324", 0),
        ("3e-324", 1),
        ("1e400", 0x7ff0_0000_0000_0000),
        ("inf", 0x7ff0_0000_0000_0000),
        ("-inf", 0xfff0_0000_0000_0000),
        ("nan", 0x7ff8_0000_0000_0000),
        ("-nan", 0xfff8_0000_0000_0000),
        ("0x0", 0),
        ("0x1", 1),
        ("0x7ff0000000000001", 0x7ff0_0000_0000_0001),
        ("0xFFFFffffFFFFffff", u64::MAX),
    ];
    for (text, bits) in texts {
        assert_eq!(float_bits(text), bits, "{text}");
    }
}

const FORMS: &str = "gate, measure, premeasure or step";
const WHOLE: &str = "a whole number below 2^64 in decimal or as 0x and up to 16 digits";
const FLOAT: &str = "a float in decimal or its bits as 0x and up to 16 digits";
const END: &str = "the end of the line";

#[test]
fn bad_lines_are_named() {
    let mut lines: Vec<(String, String, String)> = Vec::new();
    let mut bad = |line: &str, expected: &str, found: &str| {
        lines.push((line.to_string(), expected.to_string(), found.to_string()));
    };
    bad("gates 0", FORMS, "`gates`");
    bad("Gate 0", FORMS, "`Gate`");
    bad("1", FORMS, "`1`");
    bad("\0\u{1}", FORMS, "`\\0\\u{1}`");
    bad("gate\u{a0}0", FORMS, "`gate\\u{a0}0`");
    bad(&"g".repeat(40), FORMS, &format!("`{}`", "g".repeat(40)));
    bad(&"g".repeat(41), FORMS, &format!("`{}..`", "g".repeat(40)));
    // Each field, missing and wrong.
    let parts = ["s0", "f0", "s1", "f1"];
    let parts = parts
        .iter()
        .flat_map(|p| [format!("re of {p}, {FLOAT}"), format!("im of {p}, {FLOAT}")]);
    let qubit = format!("the qubit, {WHOLE}");
    let gate: Vec<_> = [qubit.clone()].into_iter().chain(parts).collect();
    let measure = vec![
        qubit.clone(),
        "the outcome, 0 or 1".into(),
        format!("the scale, {FLOAT}"),
    ];
    let premeasure = vec![qubit.clone()];
    let raw = (0..8).map(|i| format!("word {i}, {WHOLE}"));
    let raw: Vec<_> = [format!("the kind, {WHOLE}"), qubit.clone()]
        .into_iter()
        .chain(raw)
        .collect();
    for (form, fields) in [
        ("gate", gate),
        ("measure", measure),
        ("premeasure", premeasure),
        ("step", raw),
    ] {
        let mut line = form.to_string();
        for field in fields {
            bad(&line, &field, END);
            bad(&format!("{line} # 1 1 1 1 1 1 1 1 1 1"), &field, END);
            bad(&format!("{line} x y z"), &field, "`x`");
            line += " 1";
        }
        bad(&format!("{line} 7"), END, "`7`");
        bad(&format!("{line} gate 0"), END, "`gate`");
    }
    for field in [
        "-1",
        "+1",
        "1.0",
        "1e3",
        "0x",
        "0x-1",
        "0x+1",
        "0xg",
        "0X1",
        "1_000",
        "18446744073709551616",
        "0x10000000000000000",
        "0x00000000000000001",
        "٣",
    ] {
        bad(
            &format!("premeasure {field}"),
            &qubit,
            &format!("`{field}`"),
        );
    }
    for field in [
        "2",
        "-1",
        "0x2",
        "1.0",
        "4294967296",
        "18446744073709551616",
        "true",
    ] {
        bad(
            &format!("measure 0 {field} 1"),
            "the outcome, 0 or 1",
            &format!("`{field}`"),
        );
    }
    for field in [
        "0x",
        "-0x1",
        "0x1p3",
        "0X1",
        "0x10000000000000000",
        "0x+1",
        "1,5",
        "1e",
        "e5",
        ".",
        "-",
        "1i",
        "--1",
        "1_0",
        "nan1",
    ] {
        bad(
            &format!("measure 0 0 {field}"),
            &format!("the scale, {FLOAT}"),
            &format!("`{field}`"),
        );
    }
    for (line, expected, found) in lines {
        let message_of =
            |before: &str, after: &str| message(format!("{before}{line}{after}").as_bytes());
        assert_eq!(
            message_of("", ""),
            format!("1: expected {expected}, found {found}")
        );
        assert_eq!(
            message_of("# a remark\n\npremeasure 0\n \t", " \nnonsense\n"),
            format!("4: expected {expected}, found {found}")
        );
        assert_eq!(
            message_of("premeasure 0\r\n\r\n", "\r\npremeasure 0\r\n"),
            format!("3: expected {expected}, found {found}")
        );
    }
}

#[test]
fn comments_and_blanks_give_nothing() {
    for text in [
        "",
        "\n",
        "\n\n",
        " \t \n",
        "#",
        "# gate",
        "  # premeasure 0\n#\n",
        "\r\n",
        "#\r\n\r\n",
    ] {
        assert_eq!(encode(text.as_bytes()).unwrap(), [], "{text:?}");
    }
    let step = bytes(&[3, 4, 0, 0, 0, 0, 0, 0, 0, 0]);
    for text in [
        "premeasure 4",
        "premeasure 4#",
        "\t premeasure\t4  # 5 # 6",
        "#\n\npremeasure 4\n\n#",
    ] {
        assert_eq!(encode(text.as_bytes()).unwrap(), step, "{text:?}");
    }
}

#[test]
fn line_ends_do_not_matter() {
    for (name, text) in examples() {
        let text = String::from_utf8(text).unwrap();
        let encoded = encode(text.as_bytes()).unwrap();
        assert!(!encoded.is_empty() && text.ends_with('\n') && !text.contains('\r'));
        let crlf = text.replace('\n', "\r\n");
        let cut = |text: &str, end: &str| text.strip_suffix(end).unwrap().to_string();
        for other in [
            cut(&text, "\n"),
            cut(&crlf, "\r\n"),
            cut(&crlf, "\n"),
            format!("{text}{crlf}"),
            crlf.clone(),
        ] {
            let times = if other.len() > crlf.len() { 2 } else { 1 };
            assert_eq!(
                encode(other.as_bytes()).unwrap(),
                encoded.repeat(times),
                "{name}: {other:?}"
            );
        }
    }
}

#[test]
fn a_missing_final_newline_loses_no_step() {
    let two = words("premeasure 1\npremeasure 2\n");
    assert_eq!(
        two,
        [3, 1, 0, 0, 0, 0, 0, 0, 0, 0, 3, 2, 0, 0, 0, 0, 0, 0, 0, 0]
    );
    assert_eq!(words("premeasure 1\npremeasure 2"), two);
    assert_eq!(
        message(b"premeasure 1\npremeasure"),
        format!("2: expected the qubit, {WHOLE}, found {END}")
    );
}

#[test]
fn a_carriage_return_inside_a_line_is_refused() {
    for text in [
        "\n# a\rpremeasure 0\r\n",
        "\npremeasure\r0",
        "\npremeasure 0\r\r\n",
    ] {
        assert_eq!(
            message(text.as_bytes()),
            "2: expected lines that end in LF or CR LF, found a CR inside a line",
            "{text:?}"
        );
    }
}

#[test]
fn a_byte_order_mark_is_passed_over_at_the_start_only() {
    assert_eq!(words("\u{feff}premeasure 1\r\n"), words("premeasure 1"));
    assert_eq!(
        message("\n\u{feff}premeasure 1".as_bytes()),
        format!("2: expected {FORMS}, found `\\u{{feff}}premeasure`")
    );
}

#[test]
fn other_encodings_are_for_comments_only() {
    assert_eq!(
        encode(b"premeasure 0 # caf\xe9\n").unwrap(),
        encode(b"premeasure 0").unwrap()
    );
    assert_eq!(
        message(b"premeasure 0\xff\n"),
        format!("1: expected the qubit, {WHOLE}, found `0\u{fffd}`")
    );
}
