//! The loop filter of key frames: RFC 6386, section 15, in the signed numbers of its text, a pixel line at a time.

/// A picture's three planes, rows unpadded: 16 pixels a macroblock in Y, 8 in U and V.
pub struct Planes<'a> {
    pub y: &'a mut [u8],
    pub u: &'a mut [u8],
    pub v: &'a mut [u8],
}

/// Clamped to the range of a signed byte.
fn c(x: i32) -> i32 {
    x.clamp(-128, 127)
}

fn u2s(pixel: u8) -> i32 {
    i32::from(pixel) - 128
}

fn s2u(x: i32) -> u8 {
    (c(x) + 128) as u8
}

/// The limits that a level and a sharpness give (15.2 to 15.4).
struct Limits {
    macroblock_edge: i32,
    inner_edge: i32,
    interior: i32,
    /// Key frames: 2 from level 40 on, 1 from 15 on.
    high_variance: i32,
}

impl Limits {
    fn new(level: u8, sharpness: u8) -> Limits {
        let (level, sharpness) = (i32::from(level), i32::from(sharpness));
        let mut interior = level;
        if sharpness > 0 {
            interior >>= if sharpness > 4 { 2 } else { 1 };
            interior = interior.min(9 - sharpness);
        }
        let interior = interior.max(1);
        let high_variance = i32::from(level >= 15) + i32::from(level >= 40);
        Limits {
            macroblock_edge: 2 * (level + 2) + interior,
            inner_edge: 2 * level + interior,
            interior,
            high_variance,
        }
    }
}

/// The eight pixels across an edge, p3 p2 p1 p0 | q0 q1 q2 q3, where they stand in a plane: q0 at `at`, a pixel each `step`.
struct Across<'a> {
    plane: &'a mut [u8],
    at: usize,
    step: usize,
}

impl Across<'_> {
    fn p(&self, k: usize) -> i32 {
        u2s(self.plane[self.at - (k + 1) * self.step])
    }

    fn q(&self, k: usize) -> i32 {
        u2s(self.plane[self.at + k * self.step])
    }

    fn set_p(&mut self, k: usize, x: i32) {
        self.plane[self.at - (k + 1) * self.step] = s2u(x);
    }

    fn set_q(&mut self, k: usize, x: i32) {
        self.plane[self.at + k * self.step] = s2u(x);
    }

    /// Moves p0 and q0 towards one another (15.2), and says by how much q0 moved.
    fn common_adjust(&mut self, use_outer_taps: bool) -> i32 {
        let (p1, p0, q0, q1) = (self.p(1), self.p(0), self.q(0), self.q(1));
        let a = c((if use_outer_taps { c(p1 - q1) } else { 0 }) + 3 * (q0 - p0));
        let b = c(a + 3) >> 3;
        let a = c(a + 4) >> 3;
        self.set_q(0, q0 - a);
        self.set_p(0, p0 + b);
        a
    }

    fn within(&self, edge_limit: i32) -> bool {
        2 * (self.p(0) - self.q(0)).abs() + ((self.p(1) - self.q(1)).abs() >> 1) <= edge_limit
    }

    fn smooth(&self, interior: i32) -> bool {
        (0..3).all(|k| (self.p(k + 1) - self.p(k)).abs() <= interior && (self.q(k + 1) - self.q(k)).abs() <= interior)
    }

    fn high_variance(&self, threshold: i32) -> bool {
        (self.p(1) - self.p(0)).abs() > threshold || (self.q(1) - self.q(0)).abs() > threshold
    }

    /// 15.2.
    fn simple(&mut self, edge_limit: i32) {
        if self.within(edge_limit) {
            self.common_adjust(true);
        }
    }

    /// 15.3, an edge inside a macroblock.
    fn normal_inner(&mut self, edge_limit: i32, limits: &Limits) {
        if !self.within(edge_limit) || !self.smooth(limits.interior) {
            return;
        }
        let high_variance = self.high_variance(limits.high_variance);
        let (p1, q1) = (self.p(1), self.q(1));
        let a = (self.common_adjust(high_variance) + 1) >> 1;
        if !high_variance {
            self.set_q(1, q1 - a);
            self.set_p(1, p1 + a);
        }
    }

    /// 15.4, an edge between macroblocks.
    fn normal_outer(&mut self, edge_limit: i32, limits: &Limits) {
        if !self.within(edge_limit) || !self.smooth(limits.interior) {
            return;
        }
        if self.high_variance(limits.high_variance) {
            self.common_adjust(true);
            return;
        }
        let w = c(c(self.p(1) - self.q(1)) + 3 * (self.q(0) - self.p(0)));
        for (k, taps) in [27, 18, 9].into_iter().enumerate() {
            let a = c((taps * w + 63) >> 7);
            let (p, q) = (self.p(k), self.q(k));
            self.set_q(k, q - a);
            self.set_p(k, p + a);
        }
    }
}

/// One macroblock of a plane with `side` pixels a macroblock, 16 or 8: the left edge, the inner upright ones, the top edge,
/// the inner level ones. The picture's own border is no edge.
#[allow(clippy::too_many_arguments)] // a macroblock's place, and what the frame says of it
fn macroblock(
    plane: &mut [u8],
    side: usize,
    cols: usize,
    row: usize,
    col: usize,
    limits: &Limits,
    simple: bool,
    inner: bool,
) {
    let stride = side * cols;
    let start = side * row * stride + side * col;
    // `step` leads across the edge, `next` along it
    let mut edge = |at: usize, step: usize, next: usize, outer: bool| {
        let limit = if outer { limits.macroblock_edge } else { limits.inner_edge };
        for line in 0..side {
            let mut across = Across { plane, at: at + line * next, step };
            match (simple, outer) {
                (true, _) => across.simple(limit),
                (false, true) => across.normal_outer(limit, limits),
                (false, false) => across.normal_inner(limit, limits),
            }
        }
    };
    for (outside, step, next) in [(col == 0, 1, stride), (row == 0, stride, 1)] {
        if !outside {
            edge(start, step, next, true);
        }
        if inner {
            for at in (4..side).step_by(4) {
                edge(start + at * step, step, next, false);
            }
        }
    }
}

/// Filters a picture of `cols` by `rows` macroblocks: a level for each, 0 for none, and whether its inner edges are
/// filtered. The simple filter leaves U and V alone.
pub fn filter(
    planes: Planes<'_>,
    cols: usize,
    rows: usize,
    simple: bool,
    sharpness: u8,
    levels: &[u8],
    inner: &[bool],
) {
    for row in 0..rows {
        for col in 0..cols {
            let k = row * cols + col;
            if levels[k] == 0 {
                continue;
            }
            let limits = Limits::new(levels[k], sharpness);
            macroblock(planes.y, 16, cols, row, col, &limits, simple, inner[k]);
            if !simple {
                macroblock(planes.u, 8, cols, row, col, &limits, simple, inner[k]);
                macroblock(planes.v, 8, cols, row, col, &limits, simple, inner[k]);
            }
        }
    }
}
