//! The program of `crates/narrow_bench` once more, by hand in plain Rust and with nothing proved, to compare speeds:
//! `rustc -O bench/plain_separators.rs`.

use std::cmp::Ordering;

/// Half the size of the cube.
const EXTENT: i64 = 32768;

/// The largest component of a normal in lowest terms.
const LARGEST: i64 = 1 << 26;

#[derive(Clone, Copy, Default, PartialEq)]
struct Plane {
    n: [i32; 3],
    d: i64,
}

fn gcd(a: u64, b: u64) -> u64 {
    let (mut x, mut y) = (a, b);
    while y != 0 {
        (x, y) = (y, x % y);
    }
    x
}

fn wide(a: i64, b: i64) -> i128 {
    i128::from(a) * i128::from(b)
}

fn crossed(a: [i64; 3], b: [i64; 3]) -> [i64; 3] {
    [a[1] * b[2] - a[2] * b[1], a[2] * b[0] - a[0] * b[2], a[0] * b[1] - a[1] * b[0]]
}

/// The normal of three points: zero where they lie on one line.
#[inline]
fn normal(at: [i32; 3], from: [i32; 3], to: [i32; 3]) -> [i64; 3] {
    let step = |p: [i32; 3]| [0, 1, 2].map(|i| i64::from(p[i]) - i64::from(from[i]));
    crossed(step(at), step(to))
}

impl Plane {
    fn flipped(&self) -> Plane {
        Plane { n: self.n.map(|k| -k), d: -self.d }
    }

    /// `None` where the points lie on one line, or where a component of the normal is too large.
    fn through(a: [i32; 3], b: [i32; 3], c: [i32; 3]) -> Option<(Plane, bool)> {
        let mut n = normal(a, b, c);
        let mut d: i64 = (0..3).map(|i| n[i] * i64::from(b[i])).sum();
        let lead = n.iter().copied().find(|&k| k != 0)?;
        let factor = n.iter().fold(d.unsigned_abs(), |f, k| gcd(f, k.unsigned_abs())) as i64 * lead.signum();
        n = n.map(|k| k / factor);
        if n.iter().any(|k| k.abs() > LARGEST) {
            return None;
        }
        d /= factor;
        Some((Plane { n: n.map(|k| k as i32), d }, lead > 0))
    }

    /// The plane turned so that the point isn't behind it.
    fn facing(&self, p: [i32; 3]) -> Plane {
        let value = (0..3).map(|i| i64::from(self.n[i]) * i64::from(p[i])).sum::<i64>() - self.d;
        if value < 0 { self.flipped() } else { *self }
    }
}

#[derive(Clone, Copy, Default)]
struct Corner {
    at: [i128; 3],
    w: i128,
}

impl Corner {
    fn of(a: &Plane, b: &Plane, c: &Plane) -> Corner {
        let long = |g: &Plane| g.n.map(i64::from);
        let (p, q, r) = (crossed(long(b), long(c)), crossed(long(c), long(a)), crossed(long(a), long(b)));
        let at = [0, 1, 2].map(|i| wide(a.d, p[i]) + wide(b.d, q[i]) + wide(c.d, r[i]));
        let n = long(a);
        Corner { at, w: wide(n[0], p[0]) + wide(n[1], p[1]) + wide(n[2], p[2]) }
    }

    fn along(&self, n: &[i32; 3]) -> i128 {
        i128::from(n[0]) * self.at[0] + i128::from(n[1]) * self.at[1] + i128::from(n[2]) * self.at[2]
    }

    #[inline]
    fn side(&self, g: &Plane) -> Ordering {
        (self.along(&g.n) - i128::from(g.d) * self.w).cmp(&0)
    }

    fn distance(&self, n: &[i32; 3]) -> i64 {
        -(-self.along(n)).div_euclid(self.w) as i64
    }
}

/// A convex polygon: a plane, and the planes of its edges, which have it in front.
#[derive(Clone)]
struct Winding {
    plane: Plane,
    edges: Vec<Plane>,
}

impl Winding {
    fn corner(&self, i: usize) -> Corner {
        let next = if i + 1 == self.edges.len() { 0 } else { i + 1 };
        Corner::of(&self.plane, &self.edges[i], &self.edges[next])
    }

    /// The part of a plane inside the cube.
    fn on(plane: &Plane) -> Option<Winding> {
        let size = |i: usize| plane.n[i].abs();
        let axis = if size(0) >= size(1) && size(0) >= size(2) { 0 } else if size(1) >= size(2) { 1 } else { 2 };
        let (u, v) = ((axis + 1) % 3, (axis + 2) % 3);
        let (u, v) = if plane.n[axis] > 0 { (u, v) } else { (v, u) };
        let wall = |axis: usize, sign: i32| {
            let mut n = [0; 3];
            n[axis] = sign;
            Plane { n, d: -EXTENT }
        };
        let square = Winding { plane: *plane, edges: vec![wall(u, 1), wall(v, 1), wall(u, -1), wall(v, -1)] };
        square.in_front_of(&wall(axis, 1))?.in_front_of(&wall(axis, -1))
    }

    /// What it has in front of a plane.
    fn in_front_of(&self, plane: &Plane) -> Option<Winding> {
        let n = self.edges.len();
        let sides: Vec<Ordering> = (0..n).map(|i| self.corner(i).side(plane)).collect();
        if sides.iter().all(|&s| s != Ordering::Greater) {
            return None;
        }
        if sides.iter().all(|&s| s != Ordering::Less) {
            return Some(self.clone());
        }
        let is = |i: usize| sides[i] == Ordering::Greater;
        let start = (0..n).find(|&i| is(i) && !is((i + n - 1) % n)).unwrap();
        let count = (0..n).find(|&k| !is((start + k) % n)).unwrap();
        let mut edges = vec![*plane];
        edges.extend((0..=count).map(|k| self.edges[(start + k) % n]));
        Some(Winding { plane: self.plane, edges })
    }
}

/// The whole points near a corner.
#[derive(Clone, Copy)]
struct Spot {
    nearest: [i32; 3],
    below: [i32; 3],
    above: [i32; 3],
}

impl Spot {
    fn of(corner: &Corner) -> Spot {
        let mut spot = Spot { nearest: [0; 3], below: [0; 3], above: [0; 3] };
        for i in 0..3 {
            let (x, w) = (corner.at[i], corner.w);
            let down = if w == 1 { x } else { x.div_euclid(w) };
            let rest = 2 * (x - down * w);
            let up = rest > w || (rest == w && x >= 0);
            spot.below[i] = down as i32;
            spot.above[i] = down as i32 + i32::from(rest != 0);
            spot.nearest[i] = down as i32 + i32::from(up);
        }
        spot
    }

    #[inline]
    fn least(&self, n: &[i64; 3]) -> i64 {
        (0..3).map(|i| n[i] * i64::from(if n[i] < 0 { self.above[i] } else { self.below[i] })).sum()
    }

    #[inline]
    fn greatest(&self, n: &[i64; 3]) -> i64 {
        (0..3).map(|i| n[i] * i64::from(if n[i] < 0 { self.below[i] } else { self.above[i] })).sum()
    }
}

/// A winding with its corners and the whole points near them.
struct Traced {
    winding: Winding,
    corners: Vec<Corner>,
    spots: Vec<Spot>,
}

impl Traced {
    fn of(winding: Winding) -> Traced {
        let corners: Vec<Corner> = (0..winding.edges.len()).map(|i| winding.corner(i)).collect();
        let spots = corners.iter().map(Spot::of).collect();
        Traced { winding, corners, spots }
    }
}

/// From which distance on no corner of a winding may be in front of planes with a normal, and up to which none may be behind.
#[inline]
fn reach(traced: &Traced, n: &[i64; 3]) -> (i64, i64) {
    let (mut low, mut high) = (i64::MIN, i64::MAX);
    for spot in &traced.spots {
        low = low.max(spot.least(n));
        high = high.min(spot.greatest(n));
    }
    (low, high)
}

/// Whether planes with a normal may part both windings, and whether planes with the opposite one may.
#[inline]
fn outlook(source: &Traced, pass: &Traced, n: &[i64; 3]) -> (bool, bool) {
    let (low, high) = reach(source, n);
    let (mut ahead, mut back) = (true, true);
    for spot in &pass.spots {
        ahead &= spot.greatest(n) >= low;
        back &= spot.least(n) <= high;
        if !ahead && !back {
            break;
        }
    }
    (ahead, back)
}

fn parts(source: &Traced, pass: &Traced, plane: &Plane) -> bool {
    let mut off = false;
    for corner in &pass.corners {
        match corner.side(plane) {
            Ordering::Less => return false,
            Ordering::Greater => off = true,
            Ordering::Equal => {}
        }
    }
    off || source.corners.iter().any(|corner| corner.side(plane) == Ordering::Less)
}

fn at_least_distance(source: &Traced, n: [i32; 3]) -> Plane {
    let long = n.map(i64::from);
    let (mut d, _) = reach(source, &long);
    for (corner, spot) in source.corners.iter().zip(&source.spots) {
        if spot.greatest(&long) > d {
            d = d.max(corner.distance(&n));
        }
    }
    Plane { n, d }
}

fn gain_along(planes: &mut Vec<Plane>, source: &Traced, pass: &Traced, along: &Plane) {
    if planes.iter().any(|g| g.n == along.n) {
        return;
    }
    let plane = at_least_distance(source, along.n);
    if parts(source, pass, &plane) {
        planes.push(plane);
    }
}

/// Whether a normal points where that of a listed plane does; with the sign -1, where the opposite of that does.
#[inline]
fn listed(planes: &[Plane], n: &[i64; 3], sign: i64) -> bool {
    planes.iter().any(|g| {
        let m = g.n.map(|k| sign * i64::from(k));
        crossed(*n, m) == [0; 3] && (0..3).all(|i| (n[i] < 0) == (m[i] < 0))
    })
}

fn gain_through(planes: &mut Vec<Plane>, source: &Traced, pass: &Traced, at: [i32; 3], from: [i32; 3], to: [i32; 3]) {
    let n = normal(at, from, to);
    let (ahead, back) = outlook(source, pass, &n);
    let (ahead, back) = (ahead && !listed(planes, &n, 1), back && !listed(planes, &n, -1));
    if !ahead && !back {
        return;
    }
    if let Some((plane, is_front)) = Plane::through(at, from, to) {
        if if is_front { ahead } else { back } {
            gain_along(planes, source, pass, &plane);
        }
        if if is_front { back } else { ahead } {
            gain_along(planes, source, pass, &plane.flipped());
        }
    }
}

fn gain_across(planes: &mut Vec<Plane>, source: &Traced, pass: &Traced, edges: &Traced, others: &Traced) {
    let count = edges.spots.len();
    for i in 0..count {
        let from = edges.spots[i].nearest;
        let to = edges.spots[if i + 1 == count { 0 } else { i + 1 }].nearest;
        for spot in &others.spots {
            for mix in 0..8 {
                let upper = |axis: usize| mix >> axis & 1 == 1;
                if (0..3).any(|axis| upper(axis) && spot.below[axis] == spot.above[axis]) {
                    continue;
                }
                let at = [0, 1, 2].map(|axis| if upper(axis) { spot.above[axis] } else { spot.below[axis] });
                gain_through(planes, source, pass, at, from, to);
            }
        }
    }
}

fn separators_of(source: &Traced, pass: &Traced) -> Vec<Plane> {
    let mut planes = Vec::new();
    gain_across(&mut planes, source, pass, source, pass);
    gain_across(&mut planes, source, pass, pass, source);
    planes
}

fn separators(source: &Winding, pass: &Winding) -> Vec<Plane> {
    separators_of(&Traced::of(source.clone()), &Traced::of(pass.clone()))
}

fn separators_from(pass: &Option<Traced>, source: &Traced) -> Vec<Plane> {
    pass.as_ref().map_or(Vec::new(), |pass| separators_of(source, pass))
}

/// An opening, with its plane turned to the side that is entered.
struct Pane {
    winding: Winding,
    into: Plane,
}

/// Where a chain of openings stands.
struct State {
    source: Traced,
    into: Plane,
    pass: Option<Traced>,
    separators: Vec<Plane>,
}

impl State {
    fn of(source: Traced, into: Plane, pass: Option<Traced>) -> State {
        let separators = separators_from(&pass, &source);
        State { source, into, pass, separators }
    }

    fn start(pane: &Pane) -> State {
        State::of(Traced::of(pane.winding.clone()), pane.into, None)
    }

    fn step(&self, next: &Pane) -> Option<State> {
        let far = next.winding.in_front_of(&self.into)?;
        let near = self.source.winding.in_front_of(&next.into.flipped())?;
        if near.edges == self.source.winding.edges {
            return self.narrowed(near, far, &self.separators);
        }
        let near = Traced::of(near);
        let planes = separators_from(&self.pass, &near);
        self.narrowed(near.winding, far, &planes)
    }

    fn narrowed(&self, near: Winding, far: Winding, planes: &[Plane]) -> Option<State> {
        let pass = Traced::of(within(far, planes)?);
        let beyond = separators_from(&self.pass, &pass);
        let source = Traced::of(within(near, &beyond)?);
        Some(State::of(source, self.into, Some(pass)))
    }

    /// Whether a line that has met the state may still pass a portal with these corners.
    fn may_pass(&self, corners: &[Corner], into: &Plane) -> bool {
        let in_front = |g: &Plane| corners.iter().any(|corner| corner.side(g) == Ordering::Greater);
        let behind = |traced: &Traced| traced.corners.iter().any(|corner| corner.side(into) == Ordering::Less);
        in_front(&self.into) && behind(&self.source) && self.pass.as_ref().map_or(true, behind) && self.separators.iter().all(in_front)
    }
}

fn within(winding: Winding, planes: &[Plane]) -> Option<Winding> {
    planes.iter().try_fold(winding, |left, plane| left.in_front_of(plane))
}

// ---- what is timed

struct Numbers(u64);

impl Numbers {
    fn next(&mut self, count: u32) -> i32 {
        self.0 = self.0.wrapping_mul(6364136223846793005).wrapping_add(1442695040888963407);
        ((self.0 >> 33) as u32 % count) as i32
    }
}

#[derive(Clone, Copy, PartialEq)]
enum Shape {
    Whole,
    Turned,
    Fractional,
    Hexagons,
}

/// Openings across the axes.
struct Openings {
    numbers: Numbers,
    shape: Shape,
}

impl Openings {
    /// The whole point of a place, given by how far it is along an axis and along the next two.
    fn point(&self, axis: usize, place: [i32; 3]) -> [i32; 3] {
        let p = [0, 1, 2].map(|i| place[(i + 3 - axis) % 3]);
        match self.shape {
            Shape::Whole => p,
            Shape::Turned => [3 * p[0] - 4 * p[1], 4 * p[0] + 3 * p[1], 5 * p[2]],
            Shape::Fractional | Shape::Hexagons => p.map(|k| 8 * k),
        }
    }

    /// One near it, where planes are slanted.
    fn near(&mut self, axis: usize, place: [i32; 3]) -> [i32; 3] {
        let point = self.point(axis, place);
        match self.shape {
            Shape::Whole | Shape::Turned => point,
            Shape::Fractional | Shape::Hexagons => point.map(|k| k + self.numbers.next(64) - 32),
        }
    }

    fn plane(&mut self, axis: usize, places: [[i32; 3]; 3]) -> Plane {
        let [a, b, c] = places.map(|place| self.near(axis, place));
        Plane::through(a, b, c).map_or(Plane { n: [1, 0, 0], d: 0 }, |(plane, _)| plane)
    }

    /// An opening so far along an axis, entered from below.
    fn next(&mut self, axis: usize, far: i32) -> Option<Pane> {
        let (a, b) = (self.numbers.next(48) - 32, self.numbers.next(48) - 32);
        let (c, d) = (a + 12 + self.numbers.next(24), b + 12 + self.numbers.next(24));
        let plane = self.plane(axis, [[far, -32, -32], [far, 32, -32], [far, -32, 32]]);
        let into = plane.facing(self.point(axis, [far + 64, 0, 0]));
        let middle = self.point(axis, [far, (a + c) / 2, (b + d) / 2]);
        let mut winding = Winding::on(&plane)?;
        let sides = [
            [[-32, a, 0], [32, a, 32], [32, a, -32]],
            [[-32, c, 0], [32, c, 32], [32, c, -32]],
            [[-32, 0, b], [32, 32, b], [32, -32, b]],
            [[-32, 0, d], [32, 32, d], [32, -32, d]],
            [[-32, a + 6, b], [32, a + 6, b], [0, a, b + 6]],
            [[-32, c - 6, d], [32, c - 6, d], [0, c, d - 6]],
        ];
        let count = if self.shape == Shape::Hexagons { 6 } else { 4 };
        for side in &sides[..count] {
            let cut = self.plane(axis, *side).facing(middle);
            winding = winding.in_front_of(&cut)?;
        }
        Some(Pane { winding, into })
    }

    /// So many in a row, each farther along an axis than 0; where none is made, fewer.
    fn chain(&mut self) -> Option<[Pane; 3]> {
        let axis = self.numbers.next(9) as usize;
        let first = self.next(0, -8)?;
        let far = 8 + self.numbers.next(24);
        let second = self.next(if axis < 3 { axis } else { 0 }, far)?;
        let far = 48 + self.numbers.next(24);
        let third = self.next(axis % 3, far)?;
        Some([first, second, third])
    }
}

#[derive(Default)]
struct Tally {
    calls: u64,
    planes: u64,
    blocked: u64,
}

fn main() {
    let words: Vec<String> = std::env::args().skip(1).collect();
    let rounds: u32 = words.get(2).map_or(1, |word| word.parse().unwrap());
    let shapes = [("whole", Shape::Whole), ("turned", Shape::Turned), ("fractional", Shape::Fractional), ("hexagons", Shape::Hexagons)];
    for phase in ["separators", "step", "may_pass"] {
        for (name, shape) in shapes {
            if words.is_empty() || words[0] == phase && words[1] == name {
                let mut openings = Openings { numbers: Numbers(1), shape };
                let chains: Vec<[Pane; 3]> = (0..64).filter_map(|_| openings.chain()).collect();
                let tally = match phase {
                    "separators" => time_separators(&chains, rounds),
                    "step" => time_steps(&chains, rounds),
                    _ => time_may_pass(&chains, rounds),
                };
                let Tally { calls, planes, blocked } = tally;
                println!("{phase} {name}: calls {calls}, planes {planes}, blocked {blocked}");
            }
        }
    }
}

fn time_separators(chains: &[[Pane; 3]], rounds: u32) -> Tally {
    let mut tally = Tally::default();
    for _ in 0..rounds {
        for [first, second, _] in chains {
            tally.calls += 1;
            tally.planes += separators(&first.winding, &second.winding).len() as u64;
        }
    }
    tally
}

/// From the state that has gone through the first two openings through the third.
fn time_steps(chains: &[[Pane; 3]], rounds: u32) -> Tally {
    let mut tally = Tally::default();
    let states: Vec<(State, &Pane)> = chains.iter().filter_map(|[first, second, third]| Some((State::start(first).step(second)?, third))).collect();
    for _ in 0..rounds {
        for (state, next) in &states {
            tally.calls += 1;
            tally.blocked += u64::from(std::hint::black_box(state.step(next)).is_none());
        }
    }
    tally
}

/// From each state that has gone through the first two openings of a chain through the third of each, whose corners are kept.
fn time_may_pass(chains: &[[Pane; 3]], rounds: u32) -> Tally {
    let mut tally = Tally::default();
    let ways: Vec<(State, Traced, Plane)> = chains
        .iter()
        .filter_map(|[first, second, third]| Some((State::start(first).step(second)?, Traced::of(third.winding.clone()), third.into)))
        .collect();
    for _ in 0..rounds {
        for (state, _, _) in &ways {
            for (_, traced, into) in &ways {
                tally.calls += 1;
                tally.blocked += u64::from(!std::hint::black_box(state.may_pass(&traced.corners, into)));
            }
        }
    }
    tally
}
