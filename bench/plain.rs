//! The program of `crates/wind_bench` once more, by hand in plain Rust and with nothing proved, to compare
//! speeds: `rustc -O bench/plain.rs`. It keeps the corners of each winding. Build it with `--cfg cuboid` to
//! keep a cuboid in place of them, as `qm_wind` does, and to compute a corner where it is asked for.

use std::cmp::Ordering;

/// How far from 0 the cube reaches, and a part of it: what is drawn in the whole cube lies on this grid, so that no plane is too fine.
const EXTENT: i32 = 32768;
const PARTS: u32 = 4096;
const UNIT: i32 = EXTENT / PARTS as i32;

#[derive(Clone, Copy, Default, PartialEq)]
struct Plane {
    nx: i32,
    ny: i32,
    nz: i32,
    d: i64,
}

impl Plane {
    fn flipped(&self) -> Plane {
        Plane { nx: -self.nx, ny: -self.ny, nz: -self.nz, d: -self.d }
    }

    fn through(a: [i32; 3], b: [i32; 3], c: [i32; 3]) -> Option<Plane> {
        let step = |to: [i32; 3]| [0, 1, 2].map(|i| i64::from(to[i] - b[i]));
        let (u, v) = (step(a), step(c));
        let mut n = [u[1] * v[2] - u[2] * v[1], u[2] * v[0] - u[0] * v[2], u[0] * v[1] - u[1] * v[0]];
        let mut d: i64 = (0..3).map(|i| n[i] * i64::from(b[i])).sum();
        let lead = n.iter().copied().find(|&k| k != 0)?;
        let mut factor = d.unsigned_abs();
        for k in n {
            let (mut x, mut y) = (factor, k.unsigned_abs());
            while y != 0 {
                (x, y) = (y, x % y);
            }
            factor = x;
        }
        let factor = factor as i64 * lead.signum();
        n = n.map(|k| k / factor);
        d /= factor;
        Some(Plane { nx: n[0] as i32, ny: n[1] as i32, nz: n[2] as i32, d })
    }
}

#[derive(Clone, Copy, Default)]
struct Corner {
    x: i128,
    y: i128,
    z: i128,
    w: i128,
}

fn cross(a: &Plane, b: &Plane) -> [i64; 3] {
    let wide = |x: i32, y: i32| i64::from(x) * i64::from(y);
    [
        wide(a.ny, b.nz) - wide(a.nz, b.ny),
        wide(a.nz, b.nx) - wide(a.nx, b.nz),
        wide(a.nx, b.ny) - wide(a.ny, b.nx),
    ]
}

impl Corner {
    #[inline]
    fn of(a: &Plane, b: &Plane, c: &Plane) -> Corner {
        let (p, q, r) = (cross(b, c), cross(c, a), cross(a, b));
        let wide = |x: i64, y: i64| i128::from(x) * i128::from(y);
        let along = |i: usize| wide(a.d, p[i]) + wide(b.d, q[i]) + wide(c.d, r[i]);
        Corner {
            x: along(0),
            y: along(1),
            z: along(2),
            w: wide(a.nx.into(), p[0]) + wide(a.ny.into(), p[1]) + wide(a.nz.into(), p[2]),
        }
    }

    #[inline]
    fn side(&self, g: &Plane) -> Ordering {
        let v = i128::from(g.nx) * self.x + i128::from(g.ny) * self.y + i128::from(g.nz) * self.z
            - i128::from(g.d) * self.w;
        v.cmp(&0)
    }
}

/// Up to eight items in place, and all of them on the heap where there are more.
#[derive(Clone)]
struct List<T> {
    len: usize,
    inline: [T; 8],
    heap: Vec<T>,
}

impl<T: Copy + Default> List<T> {
    fn new() -> List<T> {
        List { len: 0, inline: [T::default(); 8], heap: Vec::new() }
    }

    #[inline]
    fn as_slice(&self) -> &[T] {
        if self.len <= 8 { &self.inline[..self.len] } else { &self.heap }
    }

    #[inline]
    fn push(&mut self, item: T) {
        if self.len < 8 {
            self.inline[self.len] = item;
        } else {
            if self.len == 8 {
                self.heap.extend_from_slice(&self.inline);
            }
            self.heap.push(item);
        }
        self.len += 1;
    }
}

#[cfg(cuboid)]
#[derive(Clone, Copy)]
struct Span {
    low: i32,
    high: i32,
}

#[cfg(cuboid)]
impl Span {
    #[inline]
    fn least(&self, n: i32) -> i64 {
        i64::from(n) * i64::from(if n < 0 { self.high } else { self.low })
    }

    #[inline]
    fn greatest(&self, n: i32) -> i64 {
        i64::from(n) * i64::from(if n < 0 { self.low } else { self.high })
    }

    fn tightened(&self, n: i32, d: i64) -> Span {
        let within = |d: i64| d.clamp(self.low.into(), self.high.into()) as i32;
        match n {
            1 => Span { low: within(d), high: self.high },
            -1 => Span { low: self.low, high: within(-d) },
            _ => *self,
        }
    }
}

#[cfg(cuboid)]
#[derive(Clone, Copy)]
struct Cuboid {
    x: Span,
    y: Span,
    z: Span,
}

#[cfg(cuboid)]
impl Cuboid {
    fn whole() -> Cuboid {
        let span = Span { low: -EXTENT, high: EXTENT };
        Cuboid { x: span, y: span, z: span }
    }

    #[inline]
    fn least(&self, g: &Plane) -> i64 {
        self.x.least(g.nx) + self.y.least(g.ny) + self.z.least(g.nz) - g.d
    }

    #[inline]
    fn greatest(&self, g: &Plane) -> i64 {
        self.x.greatest(g.nx) + self.y.greatest(g.ny) + self.z.greatest(g.nz) - g.d
    }

    fn tightened(self, g: &Plane) -> Cuboid {
        match (g.nx, g.ny, g.nz) {
            (n, 0, 0) => Cuboid { x: self.x.tightened(n, g.d), ..self },
            (0, n, 0) => Cuboid { y: self.y.tightened(n, g.d), ..self },
            (0, 0, n) => Cuboid { z: self.z.tightened(n, g.d), ..self },
            _ => self,
        }
    }
}

/// The corners on one side of a plane.
#[derive(Clone, Copy)]
struct Run {
    some: bool,
    start: usize,
    end: usize,
}

impl Run {
    #[inline]
    fn note(&mut self, was: bool, is: bool, place: usize) {
        self.some |= is;
        if is && !was {
            self.start = place;
        }
        if was && !is {
            self.end = place;
        }
    }
}

enum Found {
    Front,
    Back,
    On,
    Across(Run, Run),
}

#[derive(Clone)]
struct Winding {
    #[cfg(cuboid)]
    cuboid: Cuboid,
    plane: Plane,
    edges: List<Plane>,
    #[cfg(not(cuboid))]
    corners: List<Corner>,
}

enum Clip {
    Whole,
    Gone,
    Cut(Winding),
}

#[derive(Clone, Copy)]
enum Side {
    Front,
    Back,
}

impl Winding {
    fn of(plane: &Plane, edges: &[Plane]) -> Winding {
        let mut kept = List::new();
        #[cfg(not(cuboid))]
        let mut corners = List::new();
        for i in 0..edges.len() {
            kept.push(edges[i]);
            #[cfg(not(cuboid))]
            corners.push(Corner::of(plane, &edges[i], &edges[(i + 1) % edges.len()]));
        }
        Winding {
            #[cfg(cuboid)]
            cuboid: edges
                .iter()
                .fold(Cuboid::whole().tightened(plane).tightened(&plane.flipped()), Cuboid::tightened),
            plane: *plane,
            edges: kept,
            #[cfg(not(cuboid))]
            corners,
        }
    }

    #[cfg(not(cuboid))]
    #[inline]
    fn corner(&self, i: usize) -> Corner {
        self.corners.as_slice()[i]
    }

    #[cfg(cuboid)]
    #[inline]
    fn corner(&self, i: usize) -> Corner {
        let edges = self.edges.as_slice();
        let next = if i + 1 == edges.len() { 0 } else { i + 1 };
        Corner::of(&self.plane, &edges[i], &edges[next])
    }

    fn clip(&self, plane: &Plane, keep: Side) -> Clip {
        match keep {
            Side::Front => self.in_front_of(plane),
            Side::Back => self.in_front_of(&plane.flipped()),
        }
    }

    /// The part of a plane across an axis, inside the cube.
    fn on(plane: &Plane) -> Winding {
        let wall = |nx, ny, nz| Plane { nx, ny, nz, d: -i64::from(EXTENT) };
        let (u, v) = match (plane.nx, plane.ny) {
            (1, _) => ([0, 1, 0], [0, 0, 1]),
            (_, 1) => ([0, 0, 1], [1, 0, 0]),
            _ => ([1, 0, 0], [0, 1, 0]),
        };
        let near = |n: [i32; 3]| wall(n[0], n[1], n[2]);
        let far = |n: [i32; 3]| wall(-n[0], -n[1], -n[2]);
        Winding::of(plane, &[near(u), near(v), far(u), far(v)])
    }

    fn kept(self, plane: &Plane, side: Side) -> Winding {
        match self.clip(plane, side) {
            Clip::Cut(part) => part,
            Clip::Whole | Clip::Gone => self,
        }
    }

    fn split(self, plane: &Plane) -> (Option<Winding>, Option<Winding>) {
        match self.found(plane) {
            Found::Front => (Some(self), None),
            Found::Back => (None, Some(self)),
            Found::On => (None, None),
            Found::Across(front, back) => {
                (Some(self.part(plane, &front)), Some(self.part(&plane.flipped(), &back)))
            }
        }
    }

    fn in_front_of(&self, plane: &Plane) -> Clip {
        match self.found(plane) {
            Found::Front => Clip::Whole,
            Found::Back | Found::On => Clip::Gone,
            Found::Across(front, _) => Clip::Cut(self.part(plane, &front)),
        }
    }

    #[cfg(not(cuboid))]
    fn found(&self, plane: &Plane) -> Found {
        self.found_by_corners(plane)
    }

    #[cfg(cuboid)]
    fn found(&self, plane: &Plane) -> Found {
        let on = || self.plane == *plane || self.plane == plane.flipped();
        let least = self.cuboid.least(plane);
        let greatest = self.cuboid.greatest(plane);
        match (least.cmp(&0), greatest.cmp(&0)) {
            (Ordering::Less, Ordering::Greater) => self.found_by_corners(plane),
            (Ordering::Greater, _) => Found::Front,
            (_, Ordering::Less) => Found::Back,
            _ if on() => Found::On,
            (Ordering::Equal, _) => Found::Front,
            _ => Found::Back,
        }
    }

    fn found_by_corners(&self, plane: &Plane) -> Found {
        let n = self.edges.as_slice().len();
        let first = self.corner(0).side(plane);
        let mut front = Run { some: first.is_gt(), start: 0, end: 0 };
        let mut back = Run { some: first.is_lt(), start: 0, end: 0 };
        let mut before = first;
        for i in 1..=n {
            let (place, here) = if i == n { (0, first) } else { (i, self.corner(i).side(plane)) };
            front.note(before.is_gt(), here.is_gt(), place);
            back.note(before.is_lt(), here.is_lt(), place);
            before = here;
        }
        match (front.some, back.some) {
            (true, true) => Found::Across(front, back),
            (true, false) => Found::Front,
            (false, true) => Found::Back,
            (false, false) => Found::On,
        }
    }

    /// The part in front of a plane, by the run of the corners there.
    fn part(&self, plane: &Plane, run: &Run) -> Winding {
        let edges = self.edges.as_slice();
        let (n, start, end) = (edges.len(), run.start, run.end);
        let count = if start < end { end - start } else { n - start + end };
        let place = |k: usize| if start + k < n { start + k } else { start + k - n };
        let mut kept = List::new();
        #[cfg(not(cuboid))]
        let mut corners = List::new();
        for k in 0..=count {
            kept.push(edges[place(k)]);
            #[cfg(not(cuboid))]
            if k < count {
                corners.push(self.corner(place(k)));
            }
        }
        kept.push(*plane);
        #[cfg(not(cuboid))]
        {
            corners.push(Corner::of(&self.plane, &edges[place(count)], plane));
            corners.push(Corner::of(&self.plane, plane, &edges[start]));
        }
        Winding {
            #[cfg(cuboid)]
            cuboid: self.cuboid.tightened(plane),
            plane: self.plane,
            edges: kept,
            #[cfg(not(cuboid))]
            corners,
        }
    }
}

struct Numbers {
    state: u64,
}

impl Numbers {
    fn next(&mut self) -> u32 {
        self.state = self.state.wrapping_mul(6364136223846793005).wrapping_add(1442695040888963407);
        (self.state >> 33) as u32
    }

    fn point(&mut self, reach: u32, unit: i32) -> [i32; 3] {
        [(); 3].map(|()| unit * ((self.next() % (2 * reach + 1)) as i32 - reach as i32))
    }

    fn plane(&mut self, reach: u32, unit: i32) -> Plane {
        let (a, b, c) = (self.point(reach, unit), self.point(reach, unit), self.point(reach, unit));
        Plane::through(a, b, c).unwrap_or(Plane { nx: 1, ny: 0, nz: 0, d: 0 })
    }
}

fn planes() -> Vec<Plane> {
    let mut numbers = Numbers { state: 1 };
    (0..1024).map(|_| numbers.plane(PARTS, UNIT)).collect()
}

/// The plane across an axis, so many steps of 64 along it, counted from 2,048 below 0.
fn across(axis: usize, steps: u32) -> Plane {
    let mut normal = [0; 3];
    normal[axis] = 1;
    Plane { nx: normal[0], ny: normal[1], nz: normal[2], d: i64::from(steps) * 64 - 2048 }
}

/// The faces of 64 boxes, and the planes of a tree of ten levels, each eighth of which is slanted.
struct Tree {
    faces: Vec<Winding>,
    planes: Vec<Plane>,
}

impl Tree {
    fn new() -> Tree {
        let mut numbers = Numbers { state: 1 };
        let faces = (0..64).flat_map(|_| faces_of_box(&mut numbers)).collect();
        let planes = (0..1023)
            .map(|place| {
                if place % 8 == 7 {
                    numbers.plane(2048, 1)
                } else {
                    let axis = numbers.next() as usize % 3;
                    across(axis, numbers.next() % 65)
                }
            })
            .collect();
        Tree { faces, planes }
    }

    fn push_down(&self, tally: &mut Tally) {
        let mut pieces: Vec<(Winding, usize)> = self.faces.iter().map(|face| (face.clone(), 0)).collect();
        for _ in 0..10 {
            let mut below = Vec::with_capacity(pieces.len());
            for (winding, node) in pieces {
                let (front, back) = winding.split(&self.planes[node]);
                tally.note_halves(&front, &back);
                if let Some(part) = front {
                    below.push((part, 2 * node + 1));
                }
                if let Some(part) = back {
                    below.push((part, 2 * node + 2));
                }
            }
            pieces = below;
        }
    }
}

fn faces_of_box(numbers: &mut Numbers) -> Vec<Winding> {
    let low = [(); 3].map(|()| numbers.next() % 48);
    let high = low.map(|low| low + 1 + numbers.next() % 16);
    let mut faces = Vec::new();
    for axis in 0..3 {
        for end in [low[axis], high[axis]] {
            let mut face = Winding::on(&across(axis, end));
            for other in (0..3).filter(|other| *other != axis) {
                face = face.kept(&across(other, low[other]), Side::Front);
                face = face.kept(&across(other, high[other]), Side::Back);
            }
            faces.push(face);
        }
    }
    faces
}

fn square() -> Winding {
    let wall = |nx, ny| Plane { nx, ny, nz: 0, d: -i64::from(EXTENT) };
    let floor = Plane { nx: 0, ny: 0, nz: 1, d: 0 };
    Winding::of(&floor, &[wall(1, 0), wall(0, 1), wall(-1, 0), wall(0, -1)])
}

fn cut_by(start: Winding, planes: &[Plane]) -> Winding {
    planes.iter().fold(start, |w, g| match w.clip(g, Side::Back) {
        Clip::Cut(part) => part,
        _ => w,
    })
}

fn start(name: &str) -> Winding {
    let through = |a, b, c| Plane::through(a, b, c).unwrap();
    let [some, less, more, near] = [3000, 2000, 4000, 3968].map(|number| UNIT * number);
    match name {
        "octagons" => cut_by(
            square(),
            &[
                through([some, some, 0], [some, some, 1], [less, more, 0]),
                through([some, -some, 0], [some, -some, 1], [less, -more, 0]),
                through([-some, some, 0], [-some, some, 1], [-less, more, 0]).flipped(),
                through([-some, -some, 0], [-some, -some, 1], [-less, -more, 0]).flipped(),
            ],
        ),
        "misses" => cut_by(
            square(),
            &[
                through([near, 0, 0], [near, 1, 0], [near, 0, 1]).flipped(),
                through([0, near, 0], [1, near, 0], [0, near, 1]).flipped(),
            ],
        ),
        _ => square(),
    }
}

#[derive(Default)]
struct Tally {
    whole: u64,
    gone: u64,
    cut: u64,
    corners: u64,
}

impl Tally {
    fn note(&mut self, clip: &Clip) {
        match clip {
            Clip::Whole => self.whole += 1,
            Clip::Gone => self.gone += 1,
            Clip::Cut(part) => {
                self.cut += 1;
                self.corners += part.edges.as_slice().len() as u64;
            }
        }
    }

    fn note_halves(&mut self, front: &Option<Winding>, back: &Option<Winding>) {
        match (front, back) {
            (Some(front), Some(back)) => {
                self.cut += 1;
                self.corners += (front.edges.as_slice().len() + back.edges.as_slice().len()) as u64;
            }
            (None, None) => self.gone += 1,
            _ => self.whole += 1,
        }
    }
}

fn main() {
    let words: Vec<String> = std::env::args().skip(1).collect();
    let rounds = words.get(1).and_then(|w| w.parse::<u32>().ok()).unwrap_or(1);
    let planes = planes();
    for name in ["squares", "octagons", "misses", "chains", "tree"] {
        if words.first().is_some_and(|w| w != name) {
            continue;
        }
        let mut tally = Tally::default();
        if name == "tree" {
            let tree = Tree::new();
            for _ in 0..rounds {
                tree.push_down(&mut tally);
            }
        }
        let start = start(name);
        for _ in 0..if name == "tree" { 0 } else { rounds } {
            let mut winding = start.clone();
            for plane in &planes {
                if name != "chains" {
                    tally.note(&start.clip(plane, Side::Front));
                    tally.note(&start.clip(plane, Side::Back));
                    continue;
                }
                let clip = winding.clip(plane, Side::Back);
                tally.note(&clip);
                match clip {
                    Clip::Whole => {}
                    Clip::Gone => winding = start.clone(),
                    Clip::Cut(part) => winding = part,
                }
            }
        }
        let Tally { whole, gone, cut, corners } = tally;
        println!("{name}: whole {whole}, gone {gone}, cut {cut} with {corners} corners");
    }
}
