//! The cages (control meshes) that are measured: closed or with a hole, of any size, in order or shuffled.

use std::collections::HashMap;

use crate::tables::Lent;

#[derive(Clone)]
pub struct Cage {
    points: Vec<[i32; 3]>,
    triangles: Vec<[u32; 3]>,
}

/// The tetrahedron of the rules.
pub fn tetrahedron() -> Cage {
    Cage {
        points: vec![[0, 0, 0], [9, 0, 0], [0, 9, 0], [0, 0, 9]],
        triangles: vec![[0, 1, 2], [0, 3, 1], [1, 3, 2], [2, 3, 0]],
    }
}

/// The corners and outward faces of an icosahedron. Its coordinates are whole, so that points on two faces agree
/// exactly.
fn icosahedron() -> ([[i64; 3]; 12], Vec<[usize; 3]>) {
    let corners: [[i64; 3]; 12] = std::array::from_fn(|i| {
        let mut corner = [0, [1000, -1000][i & 1], [1618, -1618][i >> 1 & 1]];
        corner.rotate_right(i >> 2);
        corner
    });
    let near = |a: usize, b: usize| (0..3).map(|i| (corners[a][i] - corners[b][i]).pow(2)).sum::<i64>() < 5_000_000;
    let outward = |a: usize, b: usize, c: usize| {
        let [p, q, r] = [corners[a], corners[b], corners[c]];
        (0..3).map(|i| p[i] * (q[(i + 1) % 3] * r[(i + 2) % 3] - q[(i + 2) % 3] * r[(i + 1) % 3])).sum::<i64>() > 0
    };
    let mut faces = Vec::new();
    for a in 0..12 {
        for b in a + 1..12 {
            for c in b + 1..12 {
                if near(a, b) && near(b, c) && near(c, a) {
                    faces.push(if outward(a, b, c) { [a, b, c] } else { [a, c, b] });
                }
            }
        }
    }
    (corners, faces)
}

/// The radius of spheres.
pub const RADIUS: i32 = 1_000_000;

/// A sphere of 20 × parts² triangles: each face of an icosahedron cut into rows, and its points moved out to the
/// sphere.
pub fn sphere(parts: i64) -> Cage {
    let (corners, faces) = icosahedron();
    let mut numbers = HashMap::new();
    let mut cage = Cage { points: Vec::new(), triangles: Vec::new() };
    for [a, b, c] in faces {
        let mut vertex = |row: i64, column: i64| {
            let flat = [0, 1, 2]
                .map(|i| (parts - row) * corners[a][i] + (row - column) * corners[b][i] + column * corners[c][i]);
            *numbers.entry(flat).or_insert_with(|| {
                let radius = flat.iter().map(|&x| (x * x) as f64).sum::<f64>().sqrt();
                cage.points.push(flat.map(|x| (x as f64 / radius * f64::from(RADIUS)).round() as i32));
                cage.points.len() as u32 - 1
            })
        };
        for row in 0..parts {
            for column in 0..=row {
                cage.triangles.push([vertex(row, column), vertex(row + 1, column), vertex(row + 1, column + 1)]);
                if column < row {
                    cage.triangles.push([vertex(row, column), vertex(row + 1, column + 1), vertex(row, column + 1)]);
                }
            }
        }
    }
    cage
}

/// So many points on the circle at a height, as wide as spheres are.
fn circle(sides: u32, height: i32) -> impl Iterator<Item = [i32; 3]> {
    (0..sides).map(move |i| {
        let (sine, cosine) = (f64::from(i) / f64::from(sides) * std::f64::consts::TAU).sin_cos();
        let [x, y] = [cosine, sine].map(|share| (share * f64::from(RADIUS)).round() as i32);
        [x, y, height]
    })
}

/// An open cylinder with so many vertices on each of its two rims, each of them in three triangles.
pub fn cylinder(sides: u32) -> Cage {
    let squares = (0..sides).map(|i| (i, (i + 1) % sides));
    let halves = squares.flat_map(|(i, j)| [[i, j, j + sides], [i, j + sides, i + sides]]);
    Cage { points: circle(sides, 0).chain(circle(sides, RADIUS)).collect(), triangles: halves.collect() }
}

/// A disc with so many vertices on its rim, each of them in two triangles.
pub fn disc(sides: u32) -> Cage {
    let triangles = (0..sides).map(|i| [i, (i + 1) % sides, sides]);
    Cage { points: circle(sides, 0).chain([[0; 3]]).collect(), triangles: triangles.collect() }
}

/// Two pyramids over so many sides, base to base. Each triangle has an apex for its first corner.
pub fn bipyramid(sides: u32) -> Cage {
    let triangles = (0..sides).map(|i| (i, (i + 1) % sides)).flat_map(|(i, j)| [[sides, i, j], [sides + 1, j, i]]);
    let points = circle(sides, 0).chain([[0, 0, RADIUS], [0, 0, -RADIUS]]);
    Cage { points: points.collect(), triangles: triangles.collect() }
}

/// A disc with three vertices on its rim, and at each of them a fan of so many triangles and two more. The fans go round
/// a smaller disc.
pub fn collar(fan: u32) -> Cage {
    let inner = move |i: u32| 3 + i % (3 * fan);
    let fans = (0..3 * fan).map(move |i| [i / fan, inner(i + 1), inner(i)]);
    let between = (0..3).map(move |i| [i, (i + 1) % 3, inner((i + 1) * fan)]);
    let disc = (0..3 * fan).map(move |i| [inner(i), inner(i + 1), 3 + 3 * fan]);
    let points = circle(3, 0).chain(circle(3 * fan, RADIUS)).chain([[0; 3]]);
    Cage { points: points.collect(), triangles: fans.chain(between).chain(disc).collect() }
}

impl Cage {
    pub fn triangles(&self) -> usize {
        self.triangles.len()
    }

    /// The same figure with so many triangles, an even number more: as many as that takes are split, from the first on.
    pub fn filled(mut self, triangles: usize) -> Cage {
        for slot in 0..(triangles - self.triangles.len()) / 2 {
            let [a, b, c] = self.triangles[slot];
            let centre = self.points.len() as u32;
            let [p, q, r] = [a, b, c].map(|corner| self.points[corner as usize]);
            self.points.push(std::array::from_fn(|i| (p[i] + q[i] + r[i]) / 3));
            self.triangles[slot] = [a, b, centre];
            self.triangles.extend([[b, c, centre], [c, a, centre]]);
        }
        self
    }

    /// The same figure without its middle triangle, so that it has a boundary.
    pub fn opened(mut self) -> Cage {
        self.triangles.remove(self.triangles.len() / 2);
        self
    }

    /// The same figure without what lies above a height, so that it has a rim.
    pub fn capped(self, height: i32) -> Cage {
        let below = |corner: &u32| self.points[*corner as usize][2] <= height;
        let triangles: Vec<[u32; 3]> = self.triangles.iter().filter(|t| t.iter().all(below)).copied().collect();
        let mut numbers = HashMap::new();
        let mut points = Vec::new();
        let mut number = |corner: u32| {
            *numbers.entry(corner).or_insert_with(|| {
                points.push(self.points[corner as usize]);
                points.len() as u32 - 1
            })
        };
        let triangles = triangles.into_iter().map(|corners| corners.map(&mut number)).collect();
        Cage { points, triangles }
    }

    /// The same figure with its triangles, not its vertices, in another order: a shuffle by splitmix64 of a fixed
    /// seed.
    pub fn shuffled(mut self) -> Cage {
        let mut state = 6u64;
        for i in (1..self.triangles.len()).rev() {
            state = state.wrapping_add(0x9E37_79B9_7F4A_7C15);
            let mut z = state;
            z = (z ^ (z >> 30)).wrapping_mul(0xBF58_476D_1CE4_E5B9);
            z = (z ^ (z >> 27)).wrapping_mul(0x94D0_49BB_1331_11EB);
            self.triangles.swap(i, ((z ^ (z >> 31)) % (i as u64 + 1)) as usize);
        }
        self
    }

    /// A fresh store with room for a whole step or for the deepest refine, and the cage's bytes.
    pub fn lent(&self) -> Lent {
        let sizes = [self.points.len() as u32, self.triangles.len() as u32];
        let coordinates = self.points.iter().flatten().map(|&coordinate| coordinate as u32);
        let corners = self.triangles.iter().flatten().copied();
        let bytes = sizes.into_iter().chain(coordinates).chain(corners).flat_map(u32::to_le_bytes).collect();
        let (v, f) = (self.points.len(), self.triangles.len());
        Lent::fresh(v + f.max(100), f + 2 * f.max(100), bytes)
    }
}
