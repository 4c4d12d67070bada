//! Times the calls of the proved library beside qblaze's, in one process and on the same states:
//! nanoseconds per entry, the ratio, what copying the records costs, and the most that the project
//! allows; then comparisons of two keys; at the end the least and the largest ratios of each table
//! of entries. Both sides work on memory that was written before, with room for twice the entries,
//! and both take the same steps before a call is timed: load the state, make the call, load the
//! state again. So neither writes to memory that is colder because a call is missing. The library's
//! calls include the tests of the state, which qblaze doesn't make. Before a row is timed both
//! sides make its call once, and what they leave must be the same.
//!
//!     cargo run --profile best --offline -p butrask-bench -- [--width W]... [ENTRIES ..]
mod keys;
mod rows;
mod sides;
mod states;
mod summary;

const WIDTHS: [usize; 4] = [1, 2, 6, 62];

/// No table is made whose records take more than this many bytes: both sides hold several copies of
/// them.
const MOST_BYTES: usize = 1 << 30;

fn main() {
    let mut sizes = vec![];
    let mut widths = vec![];
    let mut words = std::env::args().skip(1);
    while let Some(word) = words.next() {
        let (to, number) = match word.as_str() {
            "--width" => (&mut widths, words.next().unwrap_or_default()),
            _ => (&mut sizes, word),
        };
        match number.parse() {
            Ok(number @ 1..) => to.push(number),
            _ => {
                eprintln!("usage: butrask-bench [--width W]... [ENTRIES ..], with whole numbers above 0; not {number:?}");
                std::process::exit(2);
            }
        }
    }
    if sizes.is_empty() {
        sizes = vec![1_000, 100_000, 1_000_000];
    }
    if widths.is_empty() {
        widths = WIDTHS.to_vec();
    }
    if !butrask_reference::BUILT {
        println!("{}", butrask_reference::NOT_BUILT);
    }
    if !at_best() {
        println!("Not built with `--profile best`: qblaze takes longer than it need.");
    }
    let mut summaries = vec![];
    for n in sizes {
        for &width in &widths {
            if n * (width + 2) * 8 > MOST_BYTES {
                println!("\nwidth {width}, {n} entries: left out, its records are more than {MOST_BYTES} bytes");
            } else {
                summaries.push(rows::table(width, n));
            }
        }
    }
    for &width in &widths {
        keys::table(width);
    }
    summary::print(&summaries);
}

/// Whether the program was built with the profile for it, by the folder that cargo puts it into.
fn at_best() -> bool {
    std::env::current_exe()
        .is_ok_and(|at| at.parent().is_some_and(|folder| folder.ends_with("best")))
}
