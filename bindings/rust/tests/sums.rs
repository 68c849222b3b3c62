//! Sums in place keep what their rounding leaves out.
use ushnazar::CDouble;

const D: f64 = 1.0 / (1u64 << 30) as f64;

#[test]
fn added() {
    let mut sum = CDouble { hi: 1.0, lo: 0.0 };
    sum.add(D * D);
    assert_eq!(sum, CDouble { hi: 1.0, lo: D * D });
    sum.add(-1.0);
    assert_eq!(sum, CDouble { hi: 0.0, lo: D * D });
    // the low part itself is rounded
    sum.add(1e300);
    sum.add(D);
    assert_eq!(sum, CDouble { hi: 1e300, lo: D + D * D });
}

#[test]
fn added_scaled() {
    // (1 + d + d²)(1 − d) is 1 − d³
    let mut sum = CDouble::default();
    sum.add_scaled(CDouble { hi: 1.0 + D, lo: D * D }, 1.0 - D);
    assert_eq!(sum, CDouble { hi: 1.0, lo: -D * D * D });
    // each part of the factor and of the sum has its own place
    let mut sum = CDouble { hi: 1000.0, lo: 100.0 };
    sum.add_scaled(CDouble { hi: 2.0, lo: 3.0 }, 7.0);
    assert_eq!(sum, CDouble { hi: 1014.0, lo: 121.0 });
}

#[test]
fn every_double_is_taken() {
    const ALL: [f64; 9] =
        [0.0, -0.0, 1.0, -1e300, f64::MAX, f64::MIN_POSITIVE, f64::INFINITY, f64::NEG_INFINITY, f64::NAN];
    for hi in ALL {
        for v in ALL {
            let mut sum = CDouble { hi, lo: 0.0 };
            sum.add(v);
            assert!(sum.hi == hi + v || sum.hi.is_nan() && (hi + v).is_nan(), "{hi} {v}");
            let mut scaled = CDouble::default();
            scaled.add_scaled(CDouble { hi, lo: v }, 1.0);
            assert!(scaled.hi == hi || scaled.hi.is_nan() && hi.is_nan(), "{hi} {v}");
        }
    }
}
