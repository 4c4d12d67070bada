//! The table of calls, and a call with its arguments.
use crate::table::{Arg, Kind, Place, Results, Row, Use};
use crate::{Gate, Side, Step};

/// The type of an argument of each kind.
macro_rules! type_of {
    (Width) => { u64 };
    (Qubit) => { u64 };
    (Number) => { u64 };
    (Pattern) => { u64 };
    (Outcome) => { bool };
    (LeftOut) => { bool };
    (Store) => { Side };
    (Gate) => { Gate };
    (Key) => { Vec<u64> };
    (Pairs) => { Vec<u64> };
    (Steps) => { Vec<Step> };
}

/// What a row that names the third buffer has, and one that doesn't: for later calls.
macro_rules! third {
    () => {
        None
    };
    ($name:ident) => {
        Some(stringify!($name))
    };
}

/// Makes [`Call`] and [`TABLE`] from the rows: each has a number, a name, the definition that
/// states the call, a variant with its arguments by kind and place, `+` and what the third buffer
/// is to it where it takes that, what becomes of the state's words, and what is given.
macro_rules! calls {
    ($(
        $(#[$doc:meta])*
        $number:literal $name:literal $definition:ident:
        $call:ident $({ $($arg:ident: $kind:ident in $place:ident),* })? $(+ $third:ident)?
        $use:ident -> $results:ident;
    )*) => {
        /// A call with all that it takes beside a state and what is lent. Floats outside a gate are
        /// bit patterns.
        #[derive(Clone, Debug, PartialEq, Eq)]
        pub enum Call {
            $( $(#[$doc])* $call $({ $($arg: type_of!($kind)),* })? ),*
        }

        /// Every call.
        pub const TABLE: &[Row] = &[$(
            Row {
                number: $number,
                name: $name,
                definition: stringify!($definition),
                args: &[$( $( Arg {
                    name: stringify!($arg),
                    kind: Kind::$kind,
                    place: Place::$place,
                } ),* )?],
                third: third!($($third)?),
                state: Use::$use,
                results: Results::$results,
            }
        ),*];

        impl Call {
            /// Its number, where it is called by number.
            pub fn number(&self) -> u64 {
                match self {
                    $( Call::$call { .. } => $number ),*
                }
            }

            /// Its arguments, in the order of its row.
            pub fn values(&self) -> Vec<Value> {
                match self {
                    $( Call::$call $({ $($arg),* })? => vec![$( $($arg.value()),* )?] ),*
                }
            }

            /// The call of a row with these arguments. None where they are not of the row's kinds.
            pub fn of(row: &Row, values: impl IntoIterator<Item = Value>) -> Option<Call> {
                let mut values = values.into_iter();
                let call = match row.number {
                    $( $number => Call::$call $({ $($arg: Argument::of(values.next()?)?),* })?, )*
                    _ => return None,
                };
                values.next().is_none().then_some(call)
            }
        }
    };
}

calls! {
    1 "perform_u4" gate_at:
        PerformU4 { qubit: Qubit in A, gate: Gate in ARG } Makes -> Counts;
    2 "measure" measure_at:
        Measure { qubit: Qubit in A, outcome: Outcome in B, scale: Pattern in C } Makes -> Nothing;
    3 "premeasure" premeasure_at:
        Premeasure { qubit: Qubit in A } Reads -> Sums;
    /// Takes no state: what it is given is replaced.
    4 "fresh" fresh_at:
        Fresh { width: Width in A } Makes -> Nothing;
    /// Takes no state: what it is given is replaced.
    5 "import_dense" dense_at:
        ImportDense { width: Width in A, store: Store in B, list: Pairs in ARG } Makes -> Nothing;
    6 "check" check_at:
        Check Reads -> Nothing;
    7 "lookup" lookup_at:
        Lookup { key: Key in ARG } Reads -> Amplitude;
    8 "export" export_at:
        Export Reads -> Part;
    9 "collapse_delta" collapse_at:
        CollapseDelta { qubit: Qubit in A, index: Number in B, gate: Gate in ARG } Reads -> Change;
    10 "forecast" forecast_at:
        Forecast { qubit: Qubit in A, gate: Gate in ARG } Reads -> Change;
    11 "run" run_at:
        Run { steps: Steps in ARG } Runs -> Done;
    /// Takes no state. Where no qubit is left out, `qubit` has no meaning.
    12 "compare" compare_at:
        Compare {
            width: Width in A, left_out: LeftOut in B, qubit: Qubit in C,
            a: Key in ARG, b: Key in ARG2
        } Ignores -> Comparison;
}

/// How many calls there are.
pub const CALLS: usize = TABLE.len();

impl Row {
    pub fn by_number(number: u64) -> Option<&'static Row> {
        TABLE.iter().find(|row| row.number == number)
    }

    pub fn by_name(name: &str) -> Option<&'static Row> {
        TABLE.iter().find(|row| row.name == name)
    }
}

impl Call {
    /// The place of its row in [`TABLE`].
    pub fn index(&self) -> usize {
        let number = self.number();
        let place = TABLE.iter().position(|row| row.number == number);
        place.expect("every call has a row")
    }

    pub fn row(&self) -> &'static Row {
        &TABLE[self.index()]
    }

    pub fn name(&self) -> &'static str {
        self.row().name
    }

    /// Its argument of a kind that is a number, if it has one.
    pub fn number_of(&self, kind: Kind) -> Option<u64> {
        let at = self.row().args.iter().position(|arg| arg.kind == kind)?;
        u64::of(self.values().swap_remove(at))
    }

    /// Puts a number into every argument of a kind that is one.
    pub fn set_number(&mut self, kind: Kind, number: u64) {
        let row = self.row();
        let with = |(arg, value): (&Arg, Value)| match arg.kind == kind {
            true => Value::Number(number),
            false => value,
        };
        let values: Vec<Value> = row.args.iter().zip(self.values()).map(with).collect();
        *self = Call::of(row, values).expect("a number stands where a number stood");
    }
}

/// An argument without its kind.
#[derive(Clone, Debug, PartialEq, Eq)]
pub enum Value {
    Number(u64),
    Flag(bool),
    Side(Side),
    Words(Vec<u64>),
}

impl Value {
    /// The words that it has in a slice; none where it is a number or stands for one.
    pub fn words(&self) -> &[u64] {
        match self {
            Value::Words(words) => words,
            _ => &[],
        }
    }

    /// The number that it is or stands for.
    pub fn number(&self) -> Option<u64> {
        match *self {
            Value::Number(number) => Some(number),
            Value::Flag(flag) => Some(u64::from(flag)),
            Value::Side(side) => Some(side.word()),
            Value::Words(_) => None,
        }
    }
}

/// A type of arguments.
trait Argument: Sized {
    fn value(&self) -> Value;
    /// None where the value is none of this type.
    fn of(value: Value) -> Option<Self>;
}

/// Types that a case of [`Value`] holds as they are.
macro_rules! held {
    ($($held:ty: $case:ident),*) => {
        $(impl Argument for $held {
            fn value(&self) -> Value {
                Value::$case(self.clone())
            }

            fn of(value: Value) -> Option<$held> {
                match value {
                    Value::$case(held) => Some(held),
                    _ => None,
                }
            }
        })*
    };
}

held! { u64: Number, bool: Flag, Side: Side, Vec<u64>: Words }

impl Argument for Gate {
    fn value(&self) -> Value {
        Value::Words(self.words().to_vec())
    }

    fn of(value: Value) -> Option<Gate> {
        let words = value.words().try_into().ok()?;
        Some(Gate::of(words))
    }
}

impl Argument for Vec<Step> {
    fn value(&self) -> Value {
        Value::Words(self.concat())
    }

    fn of(value: Value) -> Option<Vec<Step>> {
        let words: Vec<u64> = Argument::of(value)?;
        let (steps, stray) = words.as_chunks();
        stray.is_empty().then(|| steps.to_vec())
    }
}
