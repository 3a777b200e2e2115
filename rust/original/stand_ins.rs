// Stand-ins for the modules of pxfm that the included files name and that are not among them.
// Nothing that the quantile runs reaches them: a function panics, and a table is empty, so that an index panics.

fn not_here() -> ! {
    panic!("reached a module of pxfm that is not here")
}

pub(crate) mod bits {
    pub(crate) const EXP_MASK: u64 = 0x7ff0000000000000;

    pub(crate) fn get_exponent_f64(_: f64) -> i64 {
        super::not_here()
    }
}

pub(crate) mod exponents {
    pub(crate) static EXP_REDUCE_T0: [(u64, u64); 0] = [];
    pub(crate) static EXP_REDUCE_T1: [(u64, u64); 0] = [];
    pub(crate) static EXPM1_T0: [(u64, u64); 0] = [];
    pub(crate) static EXPM1_T1: [(u64, u64); 0] = [];

    pub(crate) fn ldexp(_: f64, _: i32) -> f64 {
        super::not_here()
    }
}

pub(crate) mod rounding {
    pub(crate) trait CpuRound {
        fn cpu_round(self) -> Self;
    }

    pub(crate) trait CpuRoundTiesEven {
        fn cpu_round_ties_even(self) -> Self;
    }

    impl CpuRound for f64 {
        fn cpu_round(self) -> f64 {
            super::not_here()
        }
    }

    impl CpuRoundTiesEven for f64 {
        fn cpu_round_ties_even(self) -> f64 {
            super::not_here()
        }
    }
}

pub(crate) mod dyadic_float {
    use super::not_here;
    use std::ops::{Add, Mul};

    #[derive(Copy, Clone, PartialEq)]
    pub(crate) enum DyadicSign {
        Pos,
        Neg,
    }

    impl DyadicSign {
        pub(crate) fn negate(self) -> DyadicSign {
            not_here()
        }
    }

    #[derive(Copy, Clone)]
    pub(crate) struct DyadicFloat128 {
        pub(crate) sign: DyadicSign,
        pub(crate) exponent: i16,
        pub(crate) mantissa: u128,
    }

    impl DyadicFloat128 {
        pub(crate) fn new_from_f64(_: f64) -> DyadicFloat128 {
            not_here()
        }

        pub(crate) fn fast_as_f64(&self) -> f64 {
            not_here()
        }

        pub(crate) fn trunc_to_i64(&self) -> i64 {
            not_here()
        }

        pub(crate) fn mul_int64(&self, _: i64) -> DyadicFloat128 {
            not_here()
        }

        pub(crate) fn quick_add(&self, _: &DyadicFloat128) -> DyadicFloat128 {
            not_here()
        }

        pub(crate) fn quick_mul(&self, _: &DyadicFloat128) -> DyadicFloat128 {
            not_here()
        }
    }

    impl Add for DyadicFloat128 {
        type Output = DyadicFloat128;

        fn add(self, _: DyadicFloat128) -> DyadicFloat128 {
            not_here()
        }
    }

    impl Mul for DyadicFloat128 {
        type Output = DyadicFloat128;

        fn mul(self, _: DyadicFloat128) -> DyadicFloat128 {
            not_here()
        }
    }
}
