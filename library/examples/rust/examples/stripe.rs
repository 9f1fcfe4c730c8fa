//! Encodes a stripe of the (12,2,2) code, loses three fragments, asks what to read for them, rebuilds them, and changes another.
//!
//!     LRC_LIB_DIR=$(pkg-config --variable=libdir lrc) cargo run --example stripe
use lrc::{cheapest_reads, encode, reads, update, Code, Error, Place, Survivors};

const LENGTH: usize = 100_000;

fn main() -> Result<(), Error> {
    use Place::*;
    let mut state = 1u32;
    let data: Vec<Vec<u8>> = (0..12)
        .map(|_| {
            let next = || {
                state = state.wrapping_mul(1_664_525).wrapping_add(1_013_904_223);
                (state >> 24) as u8
            };
            std::iter::repeat_with(next).take(LENGTH).collect()
        })
        .collect();
    let slices: Vec<&[u8]> = data.iter().map(Vec::as_slice).collect();
    let parities = encode(Code::Wide, &slices)?;
    let places = [X0, X1, X2, X3, X4, X5, Y0, Y1, Y2, Y3, Y4, Y5, Px, Py, P0, P1];
    let stripe = || data.iter().chain(&parities).map(Vec::as_slice).zip(places);

    let lost = [X0, Y3, P1];
    let survivors = stripe()
        .filter(|(_, place)| !lost.contains(place))
        .fold(Survivors::new(), |all, (fragment, place)| all.with(place, fragment));
    survivors.verify(Code::Wide, LENGTH)?;
    for (fragment, place) in stripe().filter(|(_, place)| lost.contains(place)) {
        let mut out = vec![0; LENGTH];
        survivors.rebuild(Code::Wide, place, &mut out)?;
        assert!(out == fragment);
        let plan = survivors.plan(Code::Wide, place)?;
        out.fill(0);
        plan.apply(&survivors, &mut out)?;
        assert!(out == fragment);
        println!("{place:?}: rebuilt from {} survivors", plan.reads());
    }
    let left: Vec<Place> = places.into_iter().filter(|place| !lost.contains(place)).collect();
    assert_eq!(reads(Code::Wide, &lost, &left)?.len(), 12);
    assert_eq!(reads(Code::Wide, &[X0], &left)?, [X1, X2, Px, X3, X4, X5]);
    let mut costs = [1; 16];
    costs[Px as usize] = 100;
    assert!(!cheapest_reads(Code::Wide, &[X0], &left, &costs)?.contains(&Px));
    assert_eq!(reads(Code::Wide, &lost, &[X1, X2]), Err(Error::Several));

    let (after, [mut px, py, mut p0, p1]) = (vec![7; LENGTH], parities.clone());
    let difference: Vec<u8> = data[1].iter().zip(&after).map(|(a, b)| a ^ b).collect();
    update(Code::Wide, X1, &difference, [Some(&mut px), None, Some(&mut p0), None])?;
    let mut changed = slices.clone();
    changed[1] = &after;
    let expected = encode(Code::Wide, &changed)?;
    assert!(px == expected[0] && py == expected[1] && p0 == expected[2] && p1 != expected[3]);

    let few = Survivors::new().with(X1, &data[1]);
    assert_eq!(few.rebuild(Code::Wide, X0, &mut [0; LENGTH]), Err(Error::Several));
    assert_eq!(survivors.rebuild(Code::Wide, X1, &mut [0; LENGTH]), Err(Error::BadArgument));
    Ok(())
}
