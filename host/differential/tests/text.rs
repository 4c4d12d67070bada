//! The text form of a case.
use butrask_calls::{Call, Gate, Lent, Side, State, CALLS};
use butrask_differential::{damage, generate, Case, Random};

#[test]
fn a_case_survives_its_text() {
    let mut r = Random::new(3);
    let mut seen = [0; CALLS];
    for _ in 0..2_000 {
        for case in [generate::case(&mut r), damage::broken(&mut r)] {
            for call in &case.calls {
                seen[call.index()] += 1;
            }
            assert_eq!(case.to_string().parse(), Ok(case));
        }
    }
    assert!(seen.iter().all(|&count| count > 50), "{seen:?}");
}

#[test]
fn the_text_is_as_described() {
    let text = "\
state width 1 front left sizes 1 0 tag 0
left 0 3ff0000000000000 0 ffff
right
perform_u4 0 3ff0000000000000 0 0 0 3ff0000000000000 0 0 0
measure 0 1 4000000000000000
compare 2 1 1 3 2 , 1 9
compare 1 0 64 , 5
";
    let one = 1.0f64.to_bits();
    let case = Case {
        state: State::new(1, Side::Left, [1, 0], Some(0)),
        lent: Lent::stores(vec![0, one, 0, 0xffff], vec![]),
        calls: vec![
            Call::PerformU4 {
                qubit: 0,
                gate: Gate::real(1.0, 0.0, 1.0, 0.0),
            },
            Call::Measure {
                qubit: 0,
                outcome: true,
                scale: 2.0f64.to_bits(),
            },
            Call::Compare {
                width: 2,
                left_out: true,
                qubit: 1,
                a: vec![3, 2],
                b: vec![1, 9],
            },
            Call::Compare {
                width: 1,
                left_out: false,
                qubit: 64,
                a: vec![],
                b: vec![5],
            },
        ],
    };
    assert_eq!(text.parse(), Ok(case.clone()));
    assert_eq!(case.to_string(), text);
}

#[test]
fn bad_texts_are_refused() {
    let state = "state width 1 front left sizes 1 0 tag 0\nleft\nright\n";
    assert!(state.parse::<Case>().is_ok());
    for line in [
        "measure 0 2 0",
        "measure 0 1",
        "premeasure 0 0",
        "perform_u4 0 0 0 0 0 0 0 0",
        "run 1 2 3",
        "import_dense 1 middle 0 0",
        "squeeze",
        "lookup g",
        "lookup 0 ,",
        "compare 1 0 0 1",
        "compare 1 2 0 1 , 1",
        "compare 1 0 0 1 , 1 , 1",
    ] {
        assert!(
            format!("{state}{line}\n").parse::<Case>().is_err(),
            "{line}"
        );
    }
    assert!("left\nright\n".parse::<Case>().is_err());
}
