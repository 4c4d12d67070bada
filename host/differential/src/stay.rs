//! Which words a call may change.
//!
//! What it writes there is not looked at: that is for a comparison. But that all others stay needs
//! no second side.
use crate::damage::first_call;
use crate::words::bit;
use crate::Case;
use butrask_calls::{Answer, Call, Lent, Refusal, Reply, Side, State, Use, WIDTHS};

/// Says what changed that had to stay, where a library gave this reply to the case's first call and
/// left these words. Of a run only one that did no step is tested.
pub fn untouched(before: &Case, reply: Reply, after: &Lent) -> Result<(), String> {
    let call = before.calls.first().ok_or("the case has no call")?;
    if let Answer::Ran { done: 1.., .. } = reply.answer {
        return Ok(());
    }
    let refusal = reply.answer.refusal();
    let mut expected = before.clone();
    if refusal.is_some() && reply.state != before.state {
        return Err(format!("the state became {:?}", reply.state));
    }
    // A gate refused after repartitioning leaves the repartitioned records at the start of the back
    // store (SPECIFICATION 3.5). Where the repartition has room, 8 and 9 come after it. An accepted
    // one leaves them too.
    if let None | Some(Refusal::Overflow | Refusal::Full) = refusal {
        if let Some(records) = repartition(before) {
            expected.back_mut()[..records.len()].copy_from_slice(&records);
        }
    }
    // Words past the last record written stay.
    let written = match refusal {
        None if call.row().state == Use::Makes => {
            used_words(&reply.state).ok_or("it gives an unreadable state")?
        }
        _ => 0,
    };
    if written > after.store(reply.state.front).len() {
        return Err(format!(
            "it gives more records than the store holds: {:?}",
            reply.state
        ));
    }
    for side in Side::BOTH {
        let from = if side == reply.state.front {
            written
        } else {
            0
        };
        if expected.lent.store(side).get(from..) != after.store(side).get(from..) {
            return Err(format!("words of the {side} store changed"));
        }
    }
    if before.lent.third != after.third {
        return Err("words of the third buffer changed".to_string());
    }
    Ok(())
}

/// How many words the records of a state take.
pub(crate) fn used_words(state: &State) -> Option<usize> {
    let words = state.entries()?.checked_mul(state.width.checked_add(2)?)?;
    usize::try_from(words).ok()
}

/// The words that a repartition by the case's first call leaves at the start of the back store, if
/// it makes one and it fits.
fn repartition(case: &Case) -> Option<Vec<u64>> {
    let Call::PerformU4 { qubit, .. } = first_call(case.calls.first()?) else {
        return None;
    };
    let width = case.state.width;
    if !WIDTHS.contains(&width) || qubit >= 64 * width || case.state.tag == Some(qubit) {
        return None;
    }
    let used = used_words(&case.state)?;
    let words = width as usize + 2;
    let mut records: Vec<&[u64]> = case.front().get(..used)?.chunks_exact(words).collect();
    records.sort_by_key(|record| (bit(record, qubit), record[..width as usize].to_vec()));
    (case.clone().back_mut().len() >= used).then(|| records.concat())
}
