//! The functions of the proved library, with the signatures that crates/butrask/src gives them. A
//! slice goes to the library as a pointer and a number of elements.

/// Declares functions of the library and makes each a safe one of the same name, in which every
/// slice is a Rust slice. It is the only place of the wrapper with `unsafe`.
macro_rules! library {
    ($(fn $name:ident($($arg:tt)*) -> $out:ty;)*) => {
        $(library! { @ ($name $out) () () () $($arg)*, })*
    };
    // One argument after the other: what the library takes, what the Rust function takes, what it
    // passes on.
    (@ $f:tt ($($c:tt)*) ($($r:tt)*) ($($p:tt)*) $x:ident: &mut [$t:ty], $($more:tt)*) => {
        library! { @ $f
            ($($c)* $x: *mut $t, _: usize,)
            ($($r)* $x: &mut [$t],)
            ($($p)* $x.as_mut_ptr(), $x.len(),)
            $($more)*
        }
    };
    (@ $f:tt ($($c:tt)*) ($($r:tt)*) ($($p:tt)*) $x:ident: &[$t:ty], $($more:tt)*) => {
        library! { @ $f
            ($($c)* $x: *const $t, _: usize,)
            ($($r)* $x: &[$t],)
            ($($p)* $x.as_ptr(), $x.len(),)
            $($more)*
        }
    };
    (@ $f:tt ($($c:tt)*) ($($r:tt)*) ($($p:tt)*) $x:ident: $t:ty, $($more:tt)*) => {
        library! { @ $f ($($c)* $x: $t,) ($($r)* $x: $t,) ($($p)* $x,) $($more)* }
    };
    (@ ($name:ident $out:ty) ($($c:tt)*) ($($r:tt)*) ($($p:tt)*)) => {
        #[allow(clippy::too_many_arguments)]
        pub(crate) fn $name($($r)*) -> $out {
            extern "C" {
                fn $name($($c)*) -> $out;
            }
            // SAFETY: the contract of the function requires nothing, it stays inside its slices,
            // and Rust lends no mutable one twice.
            unsafe { $name($($p)*) }
        }
    };
}

library! {
    fn butrask_perform_u4(
        state: &mut [u64], q: usize, gate: &[u64], left: &mut [u64], right: &mut [u64],
        out: &mut [u64]
    ) -> u64;
    fn butrask_measure(
        state: &mut [u64], q: usize, outcome: u64, scale: u64, left: &mut [u64], right: &mut [u64]
    ) -> u64;
    fn butrask_premeasure(
        state: &[u64], q: usize, left: &[u64], right: &[u64], out: &mut [u64]
    ) -> u64;
    fn butrask_fresh(width: usize, state: &mut [u64], left: &mut [u64]) -> u64;
    fn butrask_import_dense(
        width: usize, list: &[u64], store: u64, state: &mut [u64], left: &mut [u64],
        right: &mut [u64]
    ) -> u64;
    fn butrask_check(state: &[u64], left: &[u64], right: &[u64]) -> u64;
    fn butrask_lookup(
        state: &[u64], key: &[u64], left: &[u64], right: &[u64], out: &mut [u64]
    ) -> u64;
    fn butrask_export(state: &[u64], left: &[u64], right: &[u64], out: &mut [u64]) -> u64;
    fn butrask_collapse_delta(
        state: &[u64], q: usize, gate: &[u64], index: usize, left: &[u64], right: &[u64],
        out: &mut [u64]
    ) -> u64;
    fn butrask_forecast(
        state: &[u64], q: usize, gate: &[u64], left: &[u64], right: &[u64], out: &mut [u64]
    ) -> u64;
    fn butrask_gate_weight(gate: &[u64], out: &mut [u64]) -> u64;
    fn butrask_compare(
        width: usize, left_out: u64, q: usize, a: &[u64], b: &[u64], out: &mut [u64]
    ) -> u64;
    fn butrask_run(
        state: &mut [u64], steps: &[u64], left: &mut [u64], right: &mut [u64], out: &mut [u64]
    ) -> u64;
}
