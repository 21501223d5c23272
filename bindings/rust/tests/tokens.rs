//! Partitions by the safe interface: macroblocks one after another, and what is refused.

use zopredil::{Contexts, Partition, Reply};

/// Two macroblocks at even chances: 3 and -1 in the Y2 block and 2 in the first of U, then, from a byte's end on, what the
/// zeros make of it.
const BYTES: [u8; 7] = [232, 204, 192, 10, 234, 0, 0];
const EVEN: [u8; 1056] = [128; 1056];

fn contexts() -> (Contexts, Contexts) {
    (Contexts::default(), Contexts::default())
}

#[test]
fn zeros_are_macroblocks_without_coefficients() {
    let bytes = [0; 40];
    let mut partition = Partition::new(&bytes);
    let (mut above, mut left) = contexts();
    for y2 in [true, false, true] {
        assert_eq!(partition.macroblock(&EVEN, y2, &mut above, &mut left), Ok([0; 400]));
        assert_eq!((above, left), contexts());
    }
}

#[test]
fn a_macroblock_without_y2_has_zeros_in_its_place() {
    let mut partition = Partition::new(&BYTES);
    let (mut above, mut left) = contexts();
    let coeffs = partition.macroblock(&EVEN, false, &mut above, &mut left).expect("the partition is long enough");
    assert_eq!((coeffs[..16].to_vec(), coeffs[16], coeffs[17]), (vec![0; 16], 3, -1));
    assert!(!above.y2 && !left.y2);
}

#[test]
fn a_macroblock_needs_its_last_byte() {
    for length in 0..BYTES.len() {
        let mut partition = Partition::new(&BYTES[..length]);
        let (mut above, mut left) = contexts();
        let refused = partition.macroblock(&EVEN, true, &mut above, &mut left);
        assert_eq!(refused.map_err(Reply::number), Err(9));
        assert_eq!((above, left), contexts());
    }
    let mut longer = BYTES.to_vec();
    longer.extend([255; 9]);
    let (mut above, mut left) = contexts();
    let whole = Partition::new(&BYTES).macroblock(&EVEN, true, &mut above, &mut left);
    let (mut above, mut left) = contexts();
    assert_eq!(Partition::new(&longer).macroblock(&EVEN, true, &mut above, &mut left), whole);
}

#[test]
fn a_probability_of_0_is_refused_and_nothing_is_read() {
    let mut partition = Partition::new(&BYTES);
    let (mut above, mut left) = (Contexts { y2: true, ..Contexts::default() }, Contexts::default());
    let before = (above, left);
    for place in [0, 500, 1055] {
        let mut probabilities = EVEN;
        probabilities[place] = 0;
        let refused = partition.macroblock(&probabilities, true, &mut above, &mut left);
        assert_eq!(refused.map_err(Reply::number), Err(10));
        assert_eq!((above, left), before);
    }
    // an empty partition too: the probabilities are looked at first
    let refused = Partition::new(&[]).macroblock(&[0; 1056], true, &mut above, &mut left);
    assert_eq!(refused, Err(Reply::ZeroProbability));
    above.y2 = false;
    let coeffs = partition.macroblock(&EVEN, true, &mut above, &mut left).expect("it stands at its start");
    assert_eq!((coeffs[0], coeffs[1]), (3, -1));
}

#[test]
fn a_clone_reads_on_by_itself() {
    let bytes: Vec<u8> = (0..200).map(|k| (k * 37 + 11) as u8).collect();
    let mut partition = Partition::new(&bytes);
    let (mut above, mut left) = contexts();
    let probabilities = [200; 1056];
    partition.macroblock(&probabilities, true, &mut above, &mut left).expect("the partition is long enough");
    let mut clone = partition.clone();
    let (mut clone_above, mut clone_left) = (above, left);
    let next = partition.macroblock(&probabilities, false, &mut above, &mut left);
    assert!(next.is_ok());
    assert_eq!(clone.macroblock(&probabilities, false, &mut clone_above, &mut clone_left), next);
    assert_eq!((clone_above, clone_left), (above, left));
}
