//! Makes a failing case small: fewer calls, fewer records, shorter stores, simpler numbers, as long
//! as it still fails.
use crate::{Case, Difference};
use butrask_calls::{Call, Side, Value, WIDTHS};

/// No more cases than these are tried.
const TRIES: usize = 20_000;

/// The smallest case found at which `compare` still finds a difference in a call, and that
/// difference. None where it finds none in the case given.
pub fn shrink(
    case: &Case,
    mut compare: impl FnMut(&Case) -> Result<(), Difference>,
) -> Option<(Case, Difference)> {
    // A state that is not sound any more is no smaller case of the same fault.
    let mut difference = |case: &Case| compare(case).err().filter(|d| d.call.is_some());
    let mut best = (case.clone(), difference(case)?);
    let mut tries = TRIES;
    while tries > 0 {
        let bound = weight(&best.0);
        let smaller = candidates(&best.0)
            .filter(|candidate| weight(candidate) < bound)
            .take(tries)
            .find_map(|candidate| {
                tries -= 1;
                difference(&candidate).map(|found| (candidate, found))
            });
        match smaller {
            Some(smaller) => best = smaller,
            None => break,
        }
    }
    Some(best)
}

/// What is made smaller, in this order: the number of calls, of entries, of words in the stores, of
/// other numbers, and how long the numbers are.
fn weight(case: &Case) -> (usize, u64, usize, usize, u64) {
    let numbers: Vec<u64> = case.calls.iter().flat_map(numbers_of).collect();
    let words = case.lent.left.iter().chain(&case.lent.right);
    let all = words.chain(&numbers).chain(&case.state.tag);
    (
        case.calls.len(),
        case.state.entries().unwrap_or(u64::MAX),
        case.lent.left.len() + case.lent.right.len(),
        numbers.len() + usize::from(case.state.tag.is_some()),
        all.map(|&number| complexity(number)).sum(),
    )
}

/// 0 for 0, 1 for the float 1, else by how far the first bit is from the last.
fn complexity(number: u64) -> u64 {
    if number == 0 {
        0
    } else if number == 1.0f64.to_bits() {
        1
    } else {
        let length = 64 - number.leading_zeros() - number.trailing_zeros();
        2 + u64::from(length) + (number >> 63)
    }
}

/// The numbers of an argument that may be any.
fn numbers(value: &mut Value) -> &mut [u64] {
    match value {
        Value::Number(number) => std::slice::from_mut(number),
        Value::Words(words) => words,
        Value::Flag(_) | Value::Side(_) => &mut [],
    }
}

/// All numbers that a call takes.
fn numbers_of(call: &Call) -> Vec<u64> {
    let mut values = call.values();
    values.iter_mut().flat_map(numbers).map(|n| *n).collect()
}

/// The call with another number in a place of [`numbers_of`].
fn with_number(call: &Call, place: usize, number: u64) -> Call {
    let mut values = call.values();
    if let Some(old) = values.iter_mut().flat_map(numbers).nth(place) {
        *old = number;
    }
    Call::of(call.row(), values).expect("the arguments stay of their kinds")
}

/// Cases that differ from this one in one thing.
fn candidates(case: &Case) -> impl Iterator<Item = Case> + '_ {
    let fewer_calls = (0..case.calls.len()).map(|i| {
        let mut fewer = case.clone();
        fewer.calls.remove(i);
        fewer
    });
    let fewer_records = (0..records(case)).filter_map(|i| without_record(case, i));
    // Without its partner an entry gives two, which may not fit, so pairs go together.
    let fewer_pairs = (0..records(case)).flat_map(move |j| {
        (0..j).filter_map(move |i| without_record(&without_record(case, j)?, i))
    });
    fewer_calls
        .chain(fewer_records)
        .chain(fewer_pairs)
        .chain(shorter_stores(case))
        .chain(shorter_lists(case))
        .chain(simpler_calls(case))
        .chain(simpler_stores(case))
        .chain(simpler_tags(case))
}

/// The number of records that the state has and its front store holds.
fn records(case: &Case) -> usize {
    if !WIDTHS.contains(&case.state.width) {
        return 0;
    }
    let whole = case.front().len() / (case.state.width as usize + 2);
    let entries = case.state.entries().and_then(|n| n.try_into().ok());
    whole.min(entries.unwrap_or(usize::MAX))
}

/// The case without a record; as many zeros follow at the store's end.
fn without_record(case: &Case, i: usize) -> Option<Case> {
    let mut fewer = case.clone();
    let part = usize::from(i as u64 >= case.state.n0);
    let mut sizes = case.state.sizes();
    sizes[part] = sizes[part].checked_sub(1)?;
    fewer.state.set_sizes(sizes);
    let record = case.state.width as usize + 2;
    let front = fewer.front_mut();
    front.drain(i * record..(i + 1) * record);
    front.extend(std::iter::repeat_n(0, record));
    Some(fewer)
}

/// Each store with its length.
fn stores(case: &Case) -> [(Side, usize); 2] {
    Side::BOTH.map(|side| (side, case.lent.store(side).len()))
}

fn shorter_stores(case: &Case) -> impl Iterator<Item = Case> + '_ {
    stores(case).into_iter().flat_map(move |(side, length)| {
        let record = case.state.width.min(62) as usize + 2;
        let lengths = [
            0,
            length / 2,
            length.saturating_sub(record),
            length.saturating_sub(1),
        ];
        lengths.into_iter().map(move |shorter| {
            let mut other = case.clone();
            other.lent.store_mut(side).truncate(shorter);
            other
        })
    })
}

/// A run without one of its steps, a dense list without one of its pairs.
fn shorter_lists(case: &Case) -> impl Iterator<Item = Case> + '_ {
    let length = |call: &Call| match call {
        Call::Run { steps } => steps.len(),
        Call::ImportDense { list, .. } => list.len() / 2,
        _ => 0,
    };
    case.calls.iter().enumerate().flat_map(move |(at, call)| {
        (0..length(call)).map(move |i| {
            let mut other = case.clone();
            match &mut other.calls[at] {
                Call::Run { steps } => drop(steps.remove(i)),
                Call::ImportDense { list, .. } => drop(list.drain(2 * i..2 * i + 2)),
                _ => {}
            }
            other
        })
    })
}

fn simpler_calls(case: &Case) -> impl Iterator<Item = Case> + '_ {
    case.calls.iter().enumerate().flat_map(move |(at, call)| {
        let numbers = numbers_of(call).into_iter().enumerate();
        numbers.flat_map(move |(place, number)| {
            simpler_numbers(number).map(move |number| {
                let mut other = case.clone();
                other.calls[at] = with_number(call, place, number);
                other
            })
        })
    })
}

fn simpler_stores(case: &Case) -> impl Iterator<Item = Case> + '_ {
    stores(case).into_iter().flat_map(move |(side, length)| {
        (0..length).flat_map(move |i| {
            simpler_numbers(case.lent.store(side)[i]).map(move |word| {
                let mut other = case.clone();
                other.lent.store_mut(side)[i] = word;
                other
            })
        })
    })
}

fn simpler_tags(case: &Case) -> impl Iterator<Item = Case> + '_ {
    case.state.tag.into_iter().flat_map(move |tag| {
        let tags = simpler_numbers(tag).map(Some);
        [None].into_iter().chain(tags).map(move |tag| {
            let mut other = case.clone();
            other.state.tag = tag;
            other
        })
    })
}

/// Numbers to try for a number: 0, 1, the float 1, the sign alone, one without its low half, its
/// first and its last bit.
fn simpler_numbers(number: u64) -> impl Iterator<Item = u64> {
    [
        0,
        1,
        1.0f64.to_bits(),
        number & 1 << 63,
        number & !u64::from(u32::MAX),
        number & number.wrapping_neg(),
        number & number.wrapping_sub(1),
    ]
    .into_iter()
    .filter(move |&other| complexity(other) < complexity(number))
}
