//! The vectors by hand, against the proved check and the independent reading.

use std::collections::BTreeMap;

use picture::agreed;
use picture::vectors::vectors;

#[test]
fn each_vector_gives_its_number() {
    let mut reached: BTreeMap<u32, u32> = BTreeMap::new();
    for vector in vectors() {
        assert_eq!(agreed(&vector.bytes), vector.number, "{}", vector.title);
        *reached.entry(vector.number).or_default() += 1;
    }
    println!("vectors for each number: {reached:?}");
    let numbers: Vec<u32> = reached.into_keys().collect();
    assert_eq!(numbers, [0, 16, 17, 18, 19, 20, 21]);
}
