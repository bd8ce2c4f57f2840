//! The generator gives the published numbers and well-formed patterns.

use oracle::random::Random;
use oracle::{General, Symmetric};

#[test]
fn the_first_numbers_of_seed_0_are_the_published_ones() {
    let mut random = Random::new(0);
    let first = [random.bits(), random.bits(), random.bits()];
    let published = [
        0xE220_A839_7B1D_CDAF,
        0x6E78_9E6A_A1B9_65F4,
        0x06C4_5D18_8009_454F,
    ];
    assert_eq!(first, published);
}

#[test]
fn patterns_are_accepted_by_the_original() {
    let mut random = Random::new(6);
    for n in 0..20 {
        let (col_ptr, row_idx) = random.pattern(n, 400);
        let ones = vec![1.0; row_idx.len()];
        assert_eq!(General::new(n, col_ptr, row_idx, ones).validate(), Ok(()));
        let (col_ptr, row_idx) = random.lower_pattern(n, 400);
        let ones = vec![1.0; row_idx.len()];
        assert_eq!(Symmetric::new(n, col_ptr, row_idx, ones).validate(), Ok(()));
    }
}

#[test]
fn numbers_stay_in_their_ranges() {
    let mut random = Random::new(7);
    for _ in 0..1000 {
        assert!(random.below(3) < 3);
        assert!((0.0..1.0).contains(&random.unit()));
        let magnitude = random.spread(5).abs();
        assert!((2f64.powi(-5)..2f64.powi(5)).contains(&magnitude));
    }
}
