//! What the rows of a table come to: the table with which docs/PERFORMANCE.md begins has one line
//! for each.
use butrask_calls::Call;

pub struct Summary {
    width: usize,
    n: usize,
    gates: Range,
    others: Range,
    /// The rows that have a limit, and those of them that take more.
    limited: usize,
    over: usize,
}

impl Summary {
    pub fn new(width: usize, n: usize) -> Self {
        Summary {
            width,
            n,
            gates: Range::EMPTY,
            others: Range::EMPTY,
            limited: 0,
            over: 0,
        }
    }

    /// Adds a row: its ratio, and whether it is over its limit, if it has them.
    pub fn add(&mut self, call: &Call, ratio: Option<f64>, over: Option<bool>) {
        let range = match call {
            Call::PerformU4 { .. } => &mut self.gates,
            _ => &mut self.others,
        };
        range.extend(ratio);
        self.limited += usize::from(over.is_some());
        self.over += usize::from(over == Some(true));
    }
}

/// The least and the largest ratio of some rows.
struct Range {
    least: f64,
    largest: f64,
}

impl Range {
    const EMPTY: Range = Range {
        least: f64::INFINITY,
        largest: 0.0,
    };

    fn extend(&mut self, ratio: Option<f64>) {
        if let Some(ratio) = ratio {
            self.least = self.least.min(ratio);
            self.largest = self.largest.max(ratio);
        }
    }

    fn text(&self) -> String {
        if self.largest == 0.0 {
            return "-".into();
        }
        format!("{:.2} to {:.2}", self.least, self.largest)
    }
}

/// Prints the least and the largest ratios of all tables, as a table of Markdown.
pub fn print(summaries: &[Summary]) {
    println!("\n| entries | width | gates        | other calls  | rows over their limit |");
    println!("|--------:|------:|--------------|--------------|-----------------------|");
    for s in summaries {
        let over = match s.limited {
            0 => "-".into(),
            limited => format!("{} of {limited}", s.over),
        };
        println!(
            "| {:7} | {:5} | {:12} | {:12} | {over:21} |",
            s.n,
            s.width,
            s.gates.text(),
            s.others.text(),
        );
    }
}
