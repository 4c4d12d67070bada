//! A state with its context, behind the plain interface of this crate.
use super::{ExportSlice, Statevector, StatevectorImpl};
use crate::bitset::BitSet;
use crate::sfree::Element;
use crate::{caught, Complex, Config, Contents, Context, Entry, Gate, Machine, Qubit, Stopped, U4};
use std::marker::PhantomData;
use std::{iter, mem, slice};

struct Driven<const N: usize> {
    context: Context,
    state: StatevectorImpl<N>,
}

/// A fresh state of that width, if it is one of the eight.
pub(crate) fn machine(width: u64) -> Option<Box<dyn Machine>> {
    fn fresh<const N: usize>() -> Option<Box<dyn Machine>> {
        Some(Box::new(Driven::<N> {
            context: Context::new(&Config::ONE_CHUNK),
            state: StatevectorImpl::new(),
        }))
    }
    match width {
        1 => fresh::<1>(),
        2 => fresh::<2>(),
        6 => fresh::<6>(),
        14 => fresh::<14>(),
        22 => fresh::<22>(),
        30 => fresh::<30>(),
        46 => fresh::<46>(),
        62 => fresh::<62>(),
        _ => None,
    }
}

/// The width of the state that the reference makes for this largest qubit.
pub(crate) fn width_for(qubit: u64) -> u64 {
    let state = super::new(Qubit::from_index(qubit as usize));
    (state.max_qubit().index() as u64 + 1) / 64
}

fn key<const N: usize>(words: &[u64]) -> BitSet<N> {
    BitSet::from_words(words.try_into().expect("a key of N words"))
}

fn qubit(q: u64) -> Qubit {
    Qubit::from_index(q.try_into().expect("a qubit"))
}

fn complex([re, im]: [u64; 2]) -> Complex {
    Complex::from_cartesian(f64::from_bits(re), f64::from_bits(im))
}

fn patterns(a: Complex) -> [u64; 2] {
    [a.re().to_bits(), a.im().to_bits()]
}

impl<const N: usize> Machine for Driven<N> {
    fn load_with_room(&mut self, contents: &Contents, more: usize) {
        let entries = contents.parts.iter().flatten().map(|entry| Element {
            bits: key(&entry.key),
            val: complex(entry.amplitude),
        });
        let filling = || Element {
            bits: BitSet::default(),
            val: complex([0, 0]),
        };
        let elements: Vec<Element<N>> = entries.chain(iter::repeat_with(filling).take(more)).collect();
        let stride = mem::size_of::<Element<N>>();
        let slice = ExportSlice {
            marker: PhantomData,
            ptr: elements.as_ptr().cast(),
            len: elements.len(),
            stride,
            bits_offset: mem::offset_of!(Element<N>, bits),
            bits_size: mem::size_of::<BitSet<N>>(),
            value_offset: mem::offset_of!(Element<N>, val),
            partitioned_by: contents.tag.map(qubit),
            partitioned_at: contents.parts[0].len(),
        };
        self.state.import(&mut self.context, slice);
        // SAFETY: that many elements, and `more` after them, were written just now.
        unsafe { self.state.state.set_len(contents.parts.each_ref().map(Vec::len)) };
    }

    fn contents(&self) -> Contents {
        Contents {
            parts: self.state.state.slices().map(|part| {
                part.iter()
                    .map(|element| Entry {
                        key: element.bits.words().to_vec(),
                        amplitude: patterns(element.val),
                    })
                    .collect()
            }),
            tag: self.state.partitioned_by.map(|q| u64::from(q.get_u32())),
        }
    }

    fn export(&self) -> Vec<u64> {
        let slice = self.state.export();
        assert_eq!(slice.stride, 8 * (N + 2), "a record is N + 2 words");
        assert_eq!(
            (slice.bits_offset, slice.bits_size),
            (0, 8 * N),
            "the key comes first"
        );
        assert_eq!(slice.value_offset, 8 * N, "then the amplitude");
        let mut words = Vec::with_capacity(slice.len * (N + 2));
        for i in 0..slice.len * (N + 2) {
            // SAFETY: the slice describes `len` records of `stride` bytes, u64 and f64 alone, of
            // the state borrowed here.
            words.push(unsafe { slice.ptr.cast::<u64>().add(i).read() });
        }
        words
    }

    fn perform_u4(&mut self, q: u64, gate: &Gate) -> Result<(), Stopped> {
        caught(|| {
            self.state
                .perform_u4(&mut self.context, qubit(q), &U4::from_parts(gate))
        })
    }

    fn premeasure(&mut self, q: u64) -> Result<[u64; 2], Stopped> {
        caught(|| {
            self.state
                .premeasure(&mut self.context, qubit(q))
                .map(f64::to_bits)
        })
    }

    fn measure(&mut self, q: u64, outcome: bool, scale: u64) -> Result<(), Stopped> {
        let scale = f64::from_bits(scale);
        caught(|| {
            self.state
                .measure(&mut self.context, qubit(q), outcome, scale)
        })
    }

    fn lookup(&self, words: &[u64]) -> Result<Option<[u64; 2]>, Stopped> {
        caught(|| self.state.lookup(&key(words)).map(patterns))
    }

    fn collapse_delta(&self, q: u64, gate: &Gate, i: u64) -> Result<i64, Stopped> {
        caught(|| {
            self.state
                .collapse_delta(qubit(q), &U4::from_parts(gate), i) as i64
        })
    }

    fn import_dense(&mut self, amplitudes: &[[u64; 2]]) -> Result<(), Stopped> {
        const { assert!(mem::size_of::<Complex>() == 16 && mem::align_of::<Complex>() == 8) };
        // SAFETY: a Complex is re and im in this order (`repr(C)`), two f64, which any pattern is
        // one of.
        let amplitudes: &[Complex] =
            unsafe { slice::from_raw_parts(amplitudes.as_ptr().cast(), amplitudes.len()) };
        caught(|| self.state.import_dense(&mut self.context, amplitudes))
    }
}
