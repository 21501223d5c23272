//! Distances of drawn stills from measured ones: rooms beside themselves and beside each other, and what is refused.

use zopredil::*;

/// Sum of squares, largest difference and equal pixels, a pixel after another.
fn plain(drawn: &[u8], measured: &[u8]) -> Distance {
    let mut found = Distance::default();
    for (x, y) in drawn.iter().zip(measured) {
        let apart = u64::from(x.abs_diff(*y));
        found.squares += apart * apart;
        found.largest = found.largest.max(apart);
        found.equal += u64::from(apart == 0);
    }
    found
}

/// Pixels by a rule.
fn pixels(count: usize, rule: impl Fn(usize) -> usize) -> Vec<u8> {
    (0..count).map(|i| rule(i) as u8).collect()
}

#[test]
fn lists_of_stills() {
    let sizes = [[3, 1], [1, 1], [2, 4], [70, 1]];
    let count = 256 * (3 + 1 + 8 + 70);
    for (x, y) in [(7, 7), (7, 11), (0, 255), (13, 1)] {
        let drawn = pixels(count, |i| i * x / 3);
        let measured = pixels(count, |i| i * y / 3);
        let told = distance(&sizes, &drawn, &measured).unwrap();
        let mut at = 0;
        for (size, found) in sizes.iter().zip(&told.stills) {
            let end = at + 256 * (size[0] * size[1]) as usize;
            assert_eq!(*found, plain(&drawn[at..end], &measured[at..end]));
            at = end;
        }
        assert_eq!(told.total, plain(&drawn, &measured));
        assert_eq!(distance(&sizes, &measured, &drawn).unwrap(), told);
    }
}

#[test]
fn none_and_the_most() {
    assert_eq!(distance(&[], &[], &[]), Ok(Distances::default()));
    let all = vec![[1, 1]; 4096];
    let (black, white) = (vec![0; 256 * 4096], vec![255; 256 * 4096]);
    let told = distance(&all, &black, &white).unwrap();
    assert_eq!(told.stills, vec![Distance { squares: 256 * 65025, largest: 255, equal: 0 }; 4096]);
    assert_eq!(told.total, Distance { squares: 4096 * 256 * 65025, largest: 255, equal: 0 });
}

#[test]
fn refusals_in_their_order() {
    let plane = [0; 512];
    let refused = |sizes: &[[u32; 2]], drawn: &[u8], measured: &[u8]| distance(sizes, drawn, measured).unwrap_err();
    assert_eq!(refused(&vec![[0, 9]; 4097], &[], &[]), Reply::TooMany);
    for side in [0, 1025, u32::MAX] {
        assert_eq!(refused(&[[1, 1], [side, 1]], &plane, &[]), Reply::OutsidePicture);
        assert_eq!(refused(&[[1, side], [1, 1]], &plane, &[]), Reply::OutsidePicture);
    }
    assert_eq!(refused(&[[2, 1]], &plane, &plane[1..]), Reply::WrongLength);
    assert_eq!(refused(&[[2, 1]], &plane[..256], &plane), Reply::WrongLength);
    assert_eq!(refused(&[], &plane, &plane), Reply::WrongLength);
    // 2^40 pixels, which nobody lends
    assert_eq!(refused(&vec![[1024, 1024]; 4096], &plane, &plane), Reply::WrongLength);
}

#[test]
fn totals_without_their_places() {
    let (sizes, plane) = ([1u32, 1], [5u8; 256]);
    for places in [0, 2, 4] {
        let (mut reports, mut totals) = ([9u64; 3], vec![9u64; places]);
        // SAFETY: each pointer is that of a slice with its length.
        let reply = unsafe {
            raw::zopredil_distance(
                sizes.as_ptr(),
                2,
                plane.as_ptr(),
                256,
                plane.as_ptr(),
                256,
                reports.as_mut_ptr(),
                3,
                totals.as_mut_ptr(),
                places,
            )
        };
        assert_eq!((reply, reports, totals), (1, [9; 3], vec![9; places]));
    }
}
