//! The numbers of the generated inputs.

use independent::generators::random::Random;

/// The generator's published first numbers for seed 0.
#[test]
fn splitmix64() {
    let mut random = Random::new(0);
    assert_eq!(random.any(), 0xE220_A839_7B1D_CDAF);
    assert_eq!(random.any(), 0x6E78_9E6A_A1B9_65F4);
    assert_eq!(random.any(), 0x06C4_5D18_8009_454F);
}

#[test]
fn ends_are_reached() {
    let mut random = Random::new(1);
    for high in [5, 6, 7, 8] {
        let even: Vec<u64> = (0..1_000).map(|_| random.between(5, high)).collect();
        let sized: Vec<u64> = (0..1_000).map(|_| random.of_any_size(5, high)).collect();
        for n in 5..=high {
            assert!(even.contains(&n) && sized.contains(&n));
        }
        assert!(even.iter().chain(&sized).all(|n| (5..=high).contains(n)));
    }
    random.between(0, u64::MAX);
    random.of_any_size(0, u64::MAX);
}

#[test]
fn some_keep_their_order() {
    let mut random = Random::new(2);
    for count in 0..=7 {
        let some = random.some_of(&[1, 2, 3, 4, 5], count);
        assert_eq!(some.len(), count.min(5));
        assert!(some.is_sorted_by(|before, after| before < after));
    }
}
