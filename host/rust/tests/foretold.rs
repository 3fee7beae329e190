//! Random cores, programs, data and offers: what is foretold is what the tick then gives. It is proved; here the archive that a host links is seen to do it.
mod cores;
#[allow(dead_code)]
#[path = "hex/random.rs"]
mod random;

use avr_core::bytes::{foretell, tick};
use cores::{data, offer, program, snapshot};
use random::Random;
use std::collections::BTreeMap;

#[test]
fn foretold_is_then_given() {
    let (mut random, mut seen) = (Random(19), BTreeMap::new());
    for _ in 0..200_000 {
        let (mut core, offer) = (snapshot(&mut random), offer(&mut random));
        let (program, mut data) = (program(&mut random), data(&mut random));
        let (core_before, data_before) = (core.clone(), data.clone());
        let foretold = foretell(&core, &program, &data, offer);
        assert!(core == core_before && data == data_before);
        assert_eq!(tick(&mut core, &program, &mut data, offer), foretold);
        *seen.entry(foretold).or_insert(0) += 1;
    }
    for number in [1, 2, 3, 4, 7, 8, 9, 10, 16, 17, 18, 21, 23] {
        assert!(seen.contains_key(&number), "no case of {number} among {seen:?}");
    }
}
