//! Stray bytes and words: the last ones of a slice that is not whole, in every slice of every call.
//! What is expected is written from SPECIFICATION 14.2 and the header, without the model. The
//! model's tests and the library's share this.
use butrask_calls::{gate_step, to_bytes, Arg, Call, Gate, Kind, Lent, Place, Row, Side, Slice};
use butrask_calls::{State, Step, STEP_WORDS, WRONG_LENGTH};
use butrask_differential::boundary::{on_bytes, right_length, OnBytes};
use butrask_differential::listed::compare;
use butrask_differential::of_every_call;

const ONE: u64 = 0x3ff0_0000_0000_0000;
const NAN: u64 = 0x7ff8_0000_0000_0000;

/// A call on bytes.
type OnLibrary<'a> = &'a mut dyn FnMut(&mut OnBytes) -> u64;

/// Gate 1 1 -1 1.
fn gate() -> Gate {
    Gate::real(1.0, 1.0, -1.0, 1.0)
}

/// The gate as a step on qubit 0.
fn spread() -> Step {
    gate_step(0, &gate())
}

/// A run of so many such steps, no two of them the same, on qubits 0 and 1.
fn run(length: u64) -> Call {
    let step = |i: u64| {
        let mut step = gate_step(i % 2, &gate());
        step[2] = (1.0 + i as f64).to_bits();
        step
    };
    Call::Run {
        steps: (0..length).map(step).collect(),
    }
}

/// Width 1, tag 0, an entry in each part, in the left store.
fn start() -> State {
    State::new(1, Side::Left, [1, 1], Some(0))
}

/// That state with 0:1 and 1:1, in stores of four records.
fn lent(call: &Call) -> OnBytes {
    let mut left = vec![0, ONE, 0, 1, ONE, 0];
    left.resize(12, 77);
    on_bytes(call, start(), &Lent::stores(left, vec![78; 12]))
}

/// Every call, each of them done on that state.
fn calls() -> Vec<Call> {
    let (qubit, gate) = (0, gate());
    of_every_call(vec![
        Call::PerformU4 { qubit, gate },
        Call::Measure {
            qubit,
            outcome: true,
            scale: ONE,
        },
        Call::Premeasure { qubit },
        Call::Fresh { width: 1 },
        Call::ImportDense {
            width: 1,
            store: Side::Right,
            list: vec![ONE, 0, 0, ONE],
        },
        Call::Check,
        Call::Lookup { key: vec![1] },
        Call::Export,
        Call::CollapseDelta {
            qubit,
            gate,
            index: 0,
        },
        Call::Forecast { qubit, gate },
        compare(1, Some(63), &[1], &[3]),
        run(0),
        run(3),
        run(8),
        run(9),
    ])
}

/// A call on bytes that gives this number and leaves what is lent as it is after it.
fn expect(call: OnLibrary, lent: &OnBytes, number: u64, after: &OnBytes) {
    let mut given = lent.clone();
    let answer = call(&mut given);
    let lengths = Slice::ALL.map(|slice| lent[slice].len());
    assert_eq!(answer, number, "call {}, bytes {lengths:?}", lent.number);
    assert!(given == *after, "call {}, bytes {lengths:?}", lent.number);
}

/// Stray bytes of one slice.
pub fn stray_bytes(call: OnLibrary) {
    for kind in calls() {
        let whole = lent(&kind);
        let mut after = whole.clone();
        assert_eq!(call(&mut after), 0, "{kind:?}");
        let row = Row::by_number(whole.number).expect("it is a call");
        for stray in 1..8 {
            let bytes = &[0xa5; 7][..stray];
            let with = |lent: &OnBytes, slice: Slice| {
                let mut lent = lent.clone();
                lent[slice].extend(bytes);
                lent
            };
            for &slice in &Slice::ALL {
                let before = with(&whole, slice);
                let odd = |arg: &Arg| {
                    let is_list = matches!(arg.kind, Kind::Pairs | Kind::Key);
                    is_list && arg.place == Place::Slice(slice)
                };
                let (number, after) = match slice {
                    // Lent as no words, which are too few but for a gate's results.
                    _ if right_length(row, slice).is_some_and(|words| words > 0) => {
                        (WRONG_LENGTH, before.clone())
                    }
                    // A dense list that is odd, a key that is not N words.
                    _ if row.args.iter().any(odd) => (7, before.clone()),
                    // The whole steps are run, and one more is refused.
                    Slice::Arg if row.takes(Kind::Steps) => (10, with(&after, slice)),
                    // Outside a store's capacity, or of no use to the call.
                    _ => (0, with(&after, slice)),
                };
                expect(call, &before, number, &after);
            }
        }
    }
}

/// What comes before 7 and 10 in the table, and what comes after them.
pub fn stray_bytes_in_their_place(call: OnLibrary) {
    let strayed = |kind: &Call| {
        let mut lent = lent(kind);
        lent[Slice::Arg].push(0);
        lent
    };
    let mut refused = |lent: &OnBytes, number| expect(call, lent, number, lent);
    // A dense list of any number of words: 1 and 6 before 7, which comes before 9.
    let dense = |width, list: &[u64]| {
        strayed(&Call::ImportDense {
            width,
            store: Side::Left,
            list: list.to_vec(),
        })
    };
    for words in 0..4 {
        let mut list = [ONE; 3][..words].to_vec();
        refused(&dense(1, &list), 7);
        refused(&dense(3, &list), 1);
        let mut full = dense(1, &list);
        full[Slice::Left].clear();
        refused(&full, 7);
        if let Some(last) = list.last_mut() {
            *last = NAN;
            refused(&dense(1, &list), 6);
            refused(&dense(3, &list), 1);
        }
    }
    // A key of any number of words: 1, 3, 4, 5 and 6 before 7.
    for words in 0..3 {
        let sound = strayed(&Call::Lookup {
            key: vec![0; words],
        });
        refused(&sound, 7);
        let state = |change: fn(&mut State)| {
            let mut lent = sound.clone();
            let mut state = start();
            change(&mut state);
            lent[Slice::State] = to_bytes(&state.words());
            lent
        };
        refused(&state(|s| s.width = 3), 1);
        refused(&state(|s| s.n0 = 9), 3);
        refused(&state(|s| s.tag = Some(64)), 5);
        let store = |place: usize, word: u64| {
            let mut lent = sound.clone();
            lent[Slice::Left][8 * place..][..8].copy_from_slice(&word.to_le_bytes());
            lent
        };
        refused(&store(3, 0), 4);
        refused(&store(1, NAN), 6);
    }
    // Keys of a comparison, of any number of words, each with stray bytes: 1 and 2 before 7.
    for words in 0..4 {
        let (key, right) = (vec![1; words], [1, 1]);
        for (a, b) in [(&key[..], &right[..]), (&right, &key), (&key, &key)] {
            for slices in [
                &[Slice::Arg][..],
                &[Slice::Arg2],
                &[Slice::Arg, Slice::Arg2],
            ] {
                let strayed = |width, left_out| {
                    let mut lent = lent(&compare(width, left_out, a, b));
                    slices.iter().for_each(|slice| lent[*slice].push(0));
                    lent
                };
                refused(&strayed(2, None), 7);
                refused(&strayed(2, Some(127)), 7);
                refused(&strayed(2, Some(128)), 2);
                refused(&strayed(3, None), 1);
                refused(&strayed(3, Some(u64::MAX)), 1);
            }
        }
    }
}

/// Comparisons whose keys have wrong numbers of words, with whole bytes; and any number of bytes in
/// place of a state, which a comparison doesn't look at.
pub fn lengths_of_comparisons(call: OnLibrary) {
    for words in (0..5).filter(|words| *words != 2) {
        let (wrong, right) = (vec![1; words], [1, 1]);
        for (a, b) in [(&wrong[..], &right[..]), (&right, &wrong), (&wrong, &wrong)] {
            let mut refused = |width, left_out, number| {
                let lent = lent(&compare(width, left_out, a, b));
                expect(call, &lent, number, &lent);
                let mut short = lent;
                short[Slice::Out].pop();
                expect(call, &short, WRONG_LENGTH, &short);
            };
            refused(2, None, 7);
            refused(2, Some(0), 7);
            refused(2, Some(128), 2);
            refused(3, None, 1);
            refused(3, Some(u64::MAX), 1);
        }
    }
    // The example of a bit that is left out: 3 2 and 1 9 without qubit 1.
    for bytes in 0..120 {
        for slice in [Slice::State, Slice::Left, Slice::Right, Slice::Third] {
            let mut before = lent(&compare(2, Some(1), &[3, 2], &[1, 9]));
            before[slice] = vec![0xa5; bytes];
            let mut after = before.clone();
            after[Slice::Out] = to_bytes(&[u64::MAX, 2]);
            expect(call, &before, 0, &after);
        }
    }
}

/// The same where so many steps are done.
fn out(lent: &OnBytes, done: u64) -> OnBytes {
    let mut lent = lent.clone();
    lent[Slice::Out] = to_bytes(&[done]);
    lent
}

/// A run that does so many steps, and gives this number at the bytes after them.
fn stops(call: OnLibrary, steps: u64, rest: &[u8], number: u64) {
    let mut before = lent(&run(steps));
    let mut after = before.clone();
    assert_eq!(call(&mut after), 0);
    for lent in [&mut before, &mut after] {
        lent[Slice::Arg].extend(rest);
    }
    expect(call, &before, number, &out(&after, steps));
}

/// Runs of lists with words or bytes after the last whole step, also of about eight and sixteen
/// steps, where a walk that took eight at a time would begin a new piece.
pub fn stray_steps(call: OnLibrary) {
    let far = gate_step(64, &gate());
    for extra in 1..8 * STEP_WORDS {
        // Bytes that begin as a step that would be done.
        let rest = &to_bytes(&spread())[..extra];
        for steps in [0, 1, 2, 7, 8, 9, 16] {
            stops(call, steps, rest, 10);
        }
        // A step that is refused stops the run before the stray bytes.
        for steps in [0, 7, 8, 16] {
            stops(call, steps, &[&to_bytes(&far), rest].concat(), 2);
        }
        // Without a whole step the state is not tested.
        let mut none = lent(&run(0));
        none[Slice::Arg].extend(rest);
        none[Slice::State][0] = 3;
        expect(call, &none, 10, &out(&none, 0));
    }
}
