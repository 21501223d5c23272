//! The loop filter by the safe interface: what it reaches, and what is refused.

use zopredil::{filter, filter_levels, FilterKind, PlanesMut, Reply};

/// The three planes of a picture.
#[derive(Clone, Debug, PartialEq)]
struct Picture {
    y: Vec<u8>,
    u: Vec<u8>,
    v: Vec<u8>,
}

impl Picture {
    /// Each macroblock of one tone, its right neighbour eight darker and the one below eight brighter.
    fn stairs(cols: usize, rows: usize) -> Picture {
        let plane = |side: usize| {
            let tone = |i: usize| (120 - 8 * (i % (side * cols) / side) + 8 * (i / (side * side * cols))) as u8;
            (0..side * side * cols * rows).map(tone).collect()
        };
        Picture { y: plane(16), u: plane(8), v: plane(8) }
    }

    fn lend(&mut self) -> PlanesMut<'_> {
        PlanesMut { y: &mut self.y, u: &mut self.u, v: &mut self.v }
    }
}

#[test]
fn level_0_changes_nothing() {
    for kind in [FilterKind::Normal, FilterKind::Simple] {
        let mut picture = Picture::stairs(3, 2);
        assert_eq!(filter(3, 2, kind, 0, 0, &[1; 6], picture.lend()), Ok(()));
        assert_eq!(picture, Picture::stairs(3, 2));
    }
}

#[test]
fn a_lone_macroblock_has_only_inner_edges() {
    for kind in [FilterKind::Normal, FilterKind::Simple] {
        let mut picture = Picture::stairs(1, 1);
        picture.y = (0..256).map(|i| if i % 16 < 4 { 100 } else { 104 }).collect();
        let before = picture.clone();
        assert_eq!(filter(1, 1, kind, 30, 0, &[0], picture.lend()), Ok(()));
        assert_eq!(picture, before);
        assert_eq!(filter(1, 1, kind, 30, 0, &[1], picture.lend()), Ok(()));
        assert!(picture.y[3] > 100 && picture.y[4] < 104);
    }
}

#[test]
fn the_simple_filter_leaves_chroma_alone_and_reaches_one_pixel() {
    let mut picture = Picture::stairs(3, 1);
    assert_eq!(filter(3, 1, FilterKind::Simple, 40, 0, &[0; 3], picture.lend()), Ok(()));
    let before = Picture::stairs(3, 1);
    assert_eq!((&picture.u, &picture.v), (&before.u, &before.v));
    let moved: Vec<usize> = (0..48).filter(|&x| picture.y[x] != before.y[x]).collect();
    assert_eq!(moved, [15, 16, 31, 32]);
}

#[test]
fn the_normal_filter_reaches_three_pixels() {
    let mut picture = Picture::stairs(2, 1);
    assert_eq!(filter(2, 1, FilterKind::Normal, 40, 0, &[0; 2], picture.lend()), Ok(()));
    let before = Picture::stairs(2, 1);
    let moved = |now: &[u8], then: &[u8], width: usize| (0..width).filter(|&x| now[x] != then[x]).collect::<Vec<_>>();
    assert_eq!(moved(&picture.y, &before.y, 32), [13, 14, 15, 16, 17, 18]);
    assert_eq!(moved(&picture.u, &before.u, 16), [5, 6, 7, 8, 9, 10]);
}

#[test]
fn one_level_for_all_is_the_same_as_that_level_for_each() {
    for kind in [FilterKind::Normal, FilterKind::Simple] {
        let (mut one, mut each) = (Picture::stairs(4, 3), Picture::stairs(4, 3));
        let inner: Vec<u8> = (0..12).map(|k| k % 3).collect();
        assert_eq!(filter(4, 3, kind, 25, 3, &inner, one.lend()), Ok(()));
        assert_eq!(filter_levels(4, 3, kind, 3, &[25; 12], &inner, each.lend()), Ok(()));
        assert_eq!(one, each);
        assert_ne!(one, Picture::stairs(4, 3));
    }
}

#[test]
fn refusals_by_their_numbers_leave_the_planes_as_found() {
    let number = |refused: Result<(), Reply>| refused.map_err(Reply::number);
    let mut picture = Picture::stairs(2, 2);
    let kind = FilterKind::Normal;
    for (cols, rows) in [(0, 2), (2, 0), (1025, 1), (1, 1025), (usize::MAX, usize::MAX)] {
        assert_eq!(number(filter(cols, rows, kind, 64, 8, &[1; 4], picture.lend())), Err(7));
        assert_eq!(number(filter_levels(cols, rows, kind, 8, &[64; 4], &[1; 4], picture.lend())), Err(7));
    }
    assert_eq!(number(filter(2, 2, kind, 64, 8, &[1; 3], picture.lend())), Err(1));
    assert_eq!(number(filter(2, 1, kind, 20, 0, &[1; 2], picture.lend())), Err(1));
    assert_eq!(number(filter_levels(2, 2, kind, 0, &[9; 5], &[1; 4], picture.lend())), Err(1));
    assert_eq!(number(filter(2, 2, kind, 64, 0, &[1; 4], picture.lend())), Err(11));
    assert_eq!(number(filter(2, 2, kind, 20, 8, &[1; 4], picture.lend())), Err(11));
    assert_eq!(number(filter_levels(2, 2, kind, 0, &[9, 9, 9, 64], &[1; 4], picture.lend())), Err(11));
    assert_eq!(picture, Picture::stairs(2, 2));
}
