// The one list of the functions that are compared step by step: number, name, arguments, what the Rust computes.
// Three crates read it: `original` makes the Rust side, `ours` names the numbers, `compare` draws the inputs.

/// Hands the list to another macro. An entry is
/// `number name(argument: kind in [ranges], ..) if condition => the Rust's call;`
/// - the number is that of the function in crates/pxfm/src/steps.rt;
/// - kind is `f64` or `Pair` (low part, then high part);
/// - the ranges, where given, hold the values (high parts) that the quantile passes, and for the logarithms also
///   those whose exponent is 0, where the tables weigh most;
/// - where the condition fails, the answer is a pair of NaN: the Rust has no answer of its own there.
macro_rules! with_functions {
    ($receiver:ident) => {
        $receiver! {
            0 dd_split(a: f64) => DoubleDouble::split(a);
            1 dd_from_exact_mult(a: f64, b: f64) => DoubleDouble::from_exact_mult(a, b);
            2 dd_from_exact_add(a: f64, b: f64) => DoubleDouble::from_exact_add(a, b);
            3 dd_from_full_exact_add(a: f64, b: f64) => DoubleDouble::from_full_exact_add(a, b);
            4 dd_from_full_exact_sub(a: f64, b: f64) => DoubleDouble::from_full_exact_sub(a, b);
            5 dd_fast_sqrt(a: Pair in [0.0..750.0]) => a.fast_sqrt();
            6 dd_mul_add_f64(a: Pair, b: Pair, c: f64) => DoubleDouble::mul_add_f64(a, b, c);
            7 dd_recip(a: Pair) => a.recip();
            8 dd_div(a: Pair, b: Pair) => DoubleDouble::div(a, b);
            9 dd_mul_f64_add(a: Pair, b: f64, c: Pair) => DoubleDouble::mul_f64_add(a, b, c);
            10 dd_mul_add(a: Pair, b: Pair, c: Pair) => DoubleDouble::mul_add(a, b, c);
            11 dd_quick_mult(a: Pair, b: Pair) => DoubleDouble::quick_mult(a, b);
            12 dd_quick_mult_f64(a: Pair, b: f64) => DoubleDouble::quick_mult_f64(a, b);
            13 dd_full_add_f64(a: Pair, b: f64) => DoubleDouble::full_add_f64(a, b);
            14 dd_f64_add(b: f64, a: Pair) => DoubleDouble::f64_add(b, a);
            15 dd_neg(a: Pair) => -a;
            16 dd_to_f64(a: Pair) => a.to_f64();
            17 px_f_fmla(a: f64, b: f64, c: f64) => f_fmla(a, b, c);
            18 px_dd_fmla(a: f64, b: f64, c: f64) => dd_fmla(a, b, c);
            19 px_log_poly_1(z: f64 in [-0.0078125..0.0078125]) => log_poly_1(z);
            20 px_f_polyeval4(x: f64 in [0.0..0.0036], a0: f64, a1: f64, a2: f64, a3: f64)
                => f_polyeval4(x, a0, a1, a2, a3);
            21 px_f_polyeval5(x: f64 in [-0.5625..0.0], a0: f64, a1: f64, a2: f64, a3: f64, a4: f64)
                => f_polyeval5(x, a0, a1, a2, a3, a4);
            22 px_fast_log_dd(q: Pair in [0.0..0.25, 0.7..1.42]) if is_positive_finite(q.hi) => fast_log_dd(q);
            23 px_fast_log_d_to_dd(x: f64 in [0.0..0.1, 0.7..1.42]) if is_positive_finite(x) => fast_log_d_to_dd(x);
            24 px_inverf_0p06_to_0p75(x: Pair in [0.06..0.75]) => inverf_0p06_to_0p75(x);
            25 px_inverf_asympt_small(z: Pair in [0.32..0.86], zeta_sqrt: Pair in [1.17..3.04])
                => inverf_asympt_small(z, zeta_sqrt);
            26 px_inverf_asympt_long(z: Pair in [0.036..0.33], zeta_sqrt: Pair in [3.03..27.3])
                => inverf_asympt_long(z, zeta_sqrt);
            27 px_erf_core(x: Pair in [0.0..0.0095, 0.0095..0.06, 0.06..0.75, 0.75..0.9999, 0.9999..1.0])
                if x.hi < 1.0 => erf_core(x);
        }
    };
}
