//! The proved operations on amplitudes beside Rust's own operators, bit for bit, on special and
//! random operands. A second test shows that the operands tell wrong operators apart.
use butrask_differential::Random;
use butrask_host::probe::{amplitude_results, RESULTS, RESULT_NAMES};
use butrask_host::Amplitude;

/// 2^-40, by its pattern.
const EPS: u64 = 0x3d70_0000_0000_0000;

/// One set of operands.
#[derive(Clone, Copy, Debug)]
struct Operands {
    a: Amplitude,
    b: Amplitude,
    scale: f64,
}

/// Zeros of both signs, subnormals, neighbours of 1 and of 2^-40, the largest, infinities, a NaN.
fn specials() -> Vec<f64> {
    let sizes: [u64; 18] = [
        0,
        1,
        2,
        0x000f_ffff_ffff_ffff,
        0x0010_0000_0000_0000,
        0x0010_0000_0000_0001,
        EPS - 1,
        EPS,
        EPS + 1,
        0x3fef_ffff_ffff_ffff,
        0x3ff0_0000_0000_0000,
        0x3ff0_0000_0000_0001,
        0x4008_0000_0000_0000,
        0x4270_0000_0000_0000,
        0x4340_0000_0000_0000,
        0x7fef_ffff_ffff_fffe,
        0x7fef_ffff_ffff_ffff,
        0x7ff0_0000_0000_0000,
    ];
    let mut all = vec![f64::NAN];
    for n in sizes {
        all.push(f64::from_bits(n));
        all.push(f64::from_bits(n | 1 << 63));
    }
    all
}

/// A float of one of several kinds.
fn float(r: &mut Random, specials: &[f64]) -> f64 {
    match r.below(6) {
        0 => r.pick(specials),
        // Any pattern at all.
        1 => f64::from_bits(r.word()),
        // A subnormal.
        2 => f64::from_bits(r.word() & 0x800f_ffff_ffff_ffff),
        // A whole number.
        3 => (r.word() as i64 >> (11 + r.below(52))) as f64,
        // Near 1 in size, with all digits.
        4 => f64::from_bits((r.word() & 0x800f_ffff_ffff_ffff) | (1000 + r.below(46)) << 52),
        // With few digits.
        _ => (r.below(8192) as f64 - 4096.0) * 0.5f64.powi(r.below(80) as i32),
    }
}

/// The float up to 3 ulps up or down, by its pattern.
fn nudged(x: f64, r: &mut Random) -> f64 {
    f64::from_bits(x.to_bits().wrapping_add(r.below(7)).wrapping_sub(3))
}

/// b so that a + b lies about 2^-40 of a: where a has few digits, apart from it by 0 to 3 ulps of
/// b.
fn cancelling(a: f64, r: &mut Random) -> f64 {
    nudged(a * f64::from_bits(EPS) - a, r)
}

/// A scale within a few ulps of 1, of 1 ± 2^-40 or of 1 ± 2^-41.
fn near_one(r: &mut Random) -> f64 {
    let eps = f64::from_bits(EPS);
    nudged(1.0 + r.pick(&[0.0, eps, -eps, eps / 2.0, -eps / 2.0]), r)
}

fn operands(r: &mut Random, specials: &[f64]) -> Operands {
    let float = |r: &mut Random| float(r, specials);
    let a = Amplitude {
        re: float(r),
        im: float(r),
    };
    let b = Amplitude {
        re: float(r),
        im: float(r),
    };
    let scale = float(r);
    match r.below(5) {
        0 => Operands { a, b, scale },
        1 => Operands {
            a,
            b,
            scale: near_one(r),
        },
        2 => {
            let few = (1 + r.below(4095)) as f64 * 0.5f64.powi(r.below(200) as i32 - 100);
            let a = Amplitude {
                re: few,
                im: r.pick(&[0.0, -0.0, few, -few]),
            };
            let b = Amplitude {
                re: cancelling(a.re, r),
                im: -a.im,
            };
            Operands { a, b, scale }
        }
        // The sum is exact, and within a few of its own ulps of 2^-40 of a.
        3 => {
            let x = a.re;
            let a = Amplitude { re: x, im: 0.0 };
            let b = Amplitude {
                re: -x,
                im: nudged(x * f64::from_bits(EPS), r),
            };
            Operands { a, b, scale }
        }
        _ => {
            let b = Amplitude {
                re: cancelling(a.re, r),
                im: cancelling(a.im, r),
            };
            Operands { a, b, scale }
        }
    }
}

/// Every two specials as a part of a and one of b, then random sets.
fn all_operands(random: u64) -> impl Iterator<Item = Operands> {
    let specials = specials();
    let mut pairs = Vec::new();
    for x in &specials {
        for y in &specials {
            pairs.push(Operands {
                a: Amplitude { re: *x, im: 0.0 },
                b: Amplitude { re: *y, im: -0.0 },
                scale: *y,
            });
            pairs.push(Operands {
                a: Amplitude { re: *x, im: *y },
                b: Amplitude { re: *y, im: *x },
                scale: *x,
            });
        }
    }
    let mut r = Random::new(2026);
    pairs
        .into_iter()
        .chain((0..random).map(move |_| operands(&mut r, &specials)))
}

fn flag(b: bool) -> f64 {
    f64::from(u8::from(b))
}

fn norm_inf(a: Amplitude) -> f64 {
    a.re.abs().max(a.im.abs())
}

fn sum(o: &Operands) -> Amplitude {
    Amplitude {
        re: o.a.re + o.b.re,
        im: o.a.im + o.b.im,
    }
}

/// What Rust's own operators give.
fn expected(o: &Operands) -> [f64; RESULTS] {
    let Operands { a, b, scale } = *o;
    let eps = f64::from_bits(EPS);
    let s = sum(o);
    [
        a.re * b.re - a.im * b.im,
        a.re * b.im + a.im * b.re,
        s.re,
        s.im,
        flag(norm_inf(s) > eps * norm_inf(a)),
        norm_inf(a),
        a.re * a.re + a.im * a.im,
        a.re / scale,
        a.im / scale,
        flag((scale - 1.0).abs() < eps),
        flag(scale.is_finite()),
        a.re.abs(),
        a.re.max(a.im),
    ]
}

/// Whether the result is compared at these operands. `f64::max` passes a NaN over, and the proved
/// `max` is Rust's at every other float only, so norms and verdicts are left out where a part is a
/// NaN.
fn compared(result: usize, o: &Operands) -> bool {
    let nan = |x: Amplitude| x.re.is_nan() || x.im.is_nan();
    match result {
        4 => !nan(o.a) && !nan(sum(o)),
        5 | 12 => !nan(o.a),
        _ => true,
    }
}

/// The same bits, or both a NaN.
fn same(x: f64, y: f64) -> bool {
    x.to_bits() == y.to_bits() || x.is_nan() && y.is_nan()
}

/// How many sets were compared and how many differed, result by result, with the first set that
/// did.
fn differences(
    random: u64,
    reference: impl Fn(&Operands) -> [f64; RESULTS],
) -> [(u64, u64, Option<Operands>); RESULTS] {
    let mut counts = [(0, 0, None); RESULTS];
    for o in all_operands(random) {
        let proved = amplitude_results(o.a, o.b, o.scale);
        let other = reference(&o);
        for (i, count) in counts.iter_mut().enumerate() {
            if compared(i, &o) {
                count.0 += 1;
                if !same(proved[i], other[i]) {
                    count.1 += 1;
                    count.2.get_or_insert(o);
                }
            }
        }
    }
    counts
}

#[test]
fn as_rust_has_it() {
    let counts = differences(2_000_000, expected);
    for (name, (compared, differing, first)) in RESULT_NAMES.iter().zip(counts) {
        println!("{name}: {compared} compared, {differing} differences");
        assert!(compared >= 1_000_000, "{name}: too few sets");
        assert_eq!(differing, 0, "{name} differs, first at {first:?}");
    }
}

/// A wrong operator, the result that it gets wrong, and what it gives.
type Wrong = (&'static str, usize, fn(&Operands) -> f64);

#[test]
fn wrong_operators_differ() {
    fn eps() -> f64 {
        f64::from_bits(EPS)
    }
    fn larger(o: &Operands) -> f64 {
        norm_inf(o.a).max(norm_inf(o.b))
    }
    let wrong: [Wrong; 19] = [
        ("a fused product", 0, |o| {
            o.a.re.mul_add(o.b.re, -(o.a.im * o.b.im))
        }),
        ("a fused product, im", 1, |o| {
            o.a.re.mul_add(o.b.im, o.a.im * o.b.re)
        }),
        ("swapped terms", 0, |o| o.a.im * o.b.im - o.a.re * o.b.re),
        ("a product without the cross term", 1, |o| o.a.re * o.b.im),
        ("a difference", 2, |o| o.a.re - o.b.re),
        ("a difference, im", 3, |o| o.a.im - o.b.im),
        ("`>=` in the verdict", 4, |o| {
            flag(norm_inf(sum(o)) >= eps() * norm_inf(o.a))
        }),
        ("the larger operand", 4, |o| {
            flag(norm_inf(sum(o)) > eps() * larger(o))
        }),
        ("twice EPS", 4, |o| {
            flag(norm_inf(sum(o)) > 2.0 * eps() * norm_inf(o.a))
        }),
        ("EPS and an ulp", 4, |o| {
            flag(norm_inf(sum(o)) > f64::from_bits(EPS + 1) * norm_inf(o.a))
        }),
        ("one part alone", 5, |o| o.a.re.abs()),
        ("a sign that is kept", 5, |o| o.a.re.max(o.a.im)),
        ("a fused square", 6, |o| {
            o.a.re.mul_add(o.a.re, o.a.im * o.a.im)
        }),
        ("the reciprocal", 7, |o| o.a.re * (1.0 / o.scale)),
        ("the reciprocal, im", 8, |o| o.a.im * (1.0 / o.scale)),
        ("minus zero kept", 11, |o| {
            if o.a.re < 0.0 {
                -o.a.re
            } else {
                o.a.re
            }
        }),
        ("the second of equals", 12, |o| {
            if o.a.re > o.a.im {
                o.a.re
            } else {
                o.a.im
            }
        }),
        ("`<=` in the test near 1", 9, |o| {
            flag((o.scale - 1.0).abs() <= eps())
        }),
        ("a finite infinity", 10, |o| flag(!o.scale.is_nan())),
    ];
    for (i, name) in RESULT_NAMES.iter().enumerate() {
        let has_one = wrong.iter().any(|(_, result, _)| *result == i);
        assert!(has_one, "{name} has no wrong operator");
    }
    for (name, result, give) in wrong {
        let counts = differences(50_000, |o| {
            let mut all = expected(o);
            all[result] = give(o);
            all
        });
        println!(
            "{name}: {} of {} differ",
            counts[result].1, counts[result].0
        );
        assert!(counts[result].1 > 0, "{name} is not told apart");
    }
}
