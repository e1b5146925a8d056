//! Work in parts.

use independent::parts::in_parts;

#[test]
fn parts_keep_their_order() {
    for length in [0, 1, 2, 3, 100] {
        let inputs: Vec<u64> = (0..length).collect();
        assert_eq!(in_parts(&inputs, <[u64]>::to_vec).concat(), inputs);
    }
}
