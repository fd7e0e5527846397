//! Cages (control meshes): the shapes that the papers name, random ones, and their bytes.

use std::collections::HashSet;

use crate::rng::Rng;
use crate::tables::FARTHEST;

/// 65536 + 3w for rings of 2, 4, 6, 8, 10 and 12 entries. Limit positions of a mesh at multiples of it often lie
/// half-way between whole numbers; those of odd rings never do.
const LIMIT_DENOMINATORS: [i32; 6] = [196_609, 152_917, 131_071, 122_023, 117_571, 115_081];

#[derive(Clone, Debug, PartialEq, Eq)]
pub struct Cage {
    pub points: Vec<[i32; 3]>,
    pub triangles: Vec<[u32; 3]>,
}

impl Cage {
    /// A cage with all vertices that its triangles name, in the origin.
    pub fn of(triangles: Vec<[u32; 3]>) -> Cage {
        let vertices = triangles.iter().flatten().max().map_or(0, |&last| last as usize + 1);
        Cage { points: vec![[0; 3]; vertices], triangles }
    }

    /// The cage as bytes.
    pub fn bytes(&self) -> Vec<u8> {
        let sizes = [self.points.len() as u32, self.triangles.len() as u32];
        let coordinates = self.points.iter().flatten().map(|&coordinate| coordinate as u32);
        let corners = self.triangles.iter().flatten().copied();
        sizes.into_iter().chain(coordinates).chain(corners).flat_map(u32::to_le_bytes).collect()
    }

    /// The cage that bytes hold which a load has accepted.
    pub fn of_bytes(bytes: &[u8]) -> Cage {
        let words: Vec<u32> = bytes.chunks_exact(4).map(|b| u32::from_le_bytes([b[0], b[1], b[2], b[3]])).collect();
        let (coordinates, corners) = words[2..].split_at(3 * words[0] as usize);
        Cage {
            points: coordinates.chunks_exact(3).map(|p| [p[0], p[1], p[2]].map(|word| word as i32)).collect(),
            triangles: corners.chunks_exact(3).map(|t| [t[0], t[1], t[2]]).collect(),
        }
    }

    /// The edges of the cage: its pairs of vertices with a side between them.
    pub fn euler_number(&self) -> i64 {
        let pair = |a: u32, b: u32| (a.min(b), a.max(b));
        let edges: HashSet<_> =
            self.triangles.iter().flat_map(|&[a, b, c]| [pair(a, b), pair(b, c), pair(c, a)]).collect();
        self.points.len() as i64 - edges.len() as i64 + self.triangles.len() as i64
    }

    /// The same figure with vertices renumbered, triangles in another order and corners rotated.
    pub fn shuffled(&self, rng: &mut Rng) -> Cage {
        let mut number: Vec<u32> = (0..self.points.len() as u32).collect();
        rng.shuffle(&mut number);
        let mut points = self.points.clone();
        for (point, &new) in self.points.iter().zip(&number) {
            points[new as usize] = *point;
        }
        let mut triangles: Vec<[u32; 3]> =
            self.triangles.iter().map(|corners| corners.map(|corner| number[corner as usize])).collect();
        rng.shuffle(&mut triangles);
        triangles.iter_mut().for_each(|corners| corners.rotate_left(rng.below(3)));
        Cage { points, triangles }
    }

    /// The same figure with all vertices thrown anew: small, anywhere, at the limits, near them, or where halves
    /// are frequent, in a whole step or in limit positions.
    pub fn scattered(mut self, rng: &mut Rng) -> Cage {
        let style = rng.below(6);
        let denominator = rng.pick(&LIMIT_DENOMINATORS);
        for coordinate in self.points.iter_mut().flatten() {
            *coordinate = match style {
                0 => rng.between(-10, 10),
                1 => rng.between(-FARTHEST, FARTHEST),
                2 => rng.pick(&[-FARTHEST, FARTHEST]),
                3 => rng.pick(&[-1, 1]) * (FARTHEST - rng.between(0, 3)),
                4 => 32_768 * rng.between(-512, 512),
                _ => denominator * rng.between(-85, 85),
            };
        }
        self
    }

    /// Both figures side by side, as several components.
    pub fn with(mut self, other: &Cage) -> Cage {
        let shift = self.points.len() as u32;
        self.points.extend(&other.points);
        self.triangles.extend(other.triangles.iter().map(|corners| corners.map(|corner| corner + shift)));
        self
    }

    /// The same figure without one triangle.
    pub fn without(mut self, slot: usize) -> Cage {
        self.triangles.remove(slot);
        self
    }

    /// Drops vertices without triangles.
    pub fn trimmed(self) -> Cage {
        let used: HashSet<u32> = self.triangles.iter().flatten().copied().collect();
        let kept: Vec<u32> = (0..self.points.len() as u32).filter(|vertex| used.contains(vertex)).collect();
        let number = |corner: u32| kept.binary_search(&corner).expect("a corner is used") as u32;
        Cage {
            points: kept.iter().map(|&vertex| self.points[vertex as usize]).collect(),
            triangles: self.triangles.iter().map(|corners| corners.map(number)).collect(),
        }
    }
}

/// The tetrahedron of document 01.
pub fn tetrahedron() -> Cage {
    Cage {
        points: vec![[0, 0, 0], [9, 0, 0], [0, 9, 0], [0, 0, 9]],
        triangles: vec![[0, 1, 2], [0, 3, 1], [1, 3, 2], [2, 3, 0]],
    }
}

/// Two triangles back to back, linked by all three sides.
pub fn foil() -> Cage {
    Cage::of(vec![[0, 1, 2], [0, 2, 1]])
}

/// A closed figure with two apexes over a polygon; four sides make an octahedron.
pub fn double_pyramid(sides: u32) -> Cage {
    let ring = (0..sides).map(|i| (i, (i + 1) % sides));
    Cage::of(ring.flat_map(|(i, j)| [[i, j, sides], [j, i, sides + 1]]).collect())
}

/// A closed figure of genus one; both numbers are at least 3.
pub fn torus(rows: u32, columns: u32) -> Cage {
    let at = |i: u32, j: u32| (i % rows) * columns + j % columns;
    let squares = (0..rows).flat_map(|i| (0..columns).map(move |j| (i, j)));
    Cage::of(squares.flat_map(|(i, j)| halves(at(i, j), at(i + 1, j), at(i + 1, j + 1), at(i, j + 1))).collect())
}

/// An open sheet of squares, each cut in two.
pub fn sheet(rows: u32, columns: u32) -> Cage {
    let at = |i: u32, j: u32| i * (columns + 1) + j;
    let squares = (0..rows).flat_map(|i| (0..columns).map(move |j| (i, j)));
    Cage::of(squares.flat_map(|(i, j)| halves(at(i, j), at(i + 1, j), at(i + 1, j + 1), at(i, j + 1))).collect())
}

/// Such a sheet with two square holes, so with three boundaries.
pub fn pierced() -> Cage {
    let mut cage = sheet(5, 5);
    let hole = |triangle: usize| [6, 18].contains(&(triangle / 2));
    let mut slots = 0..;
    cage.triangles.retain(|_| !hole(slots.next().expect("endless")));
    cage
}

/// An open band with two boundaries.
pub fn band(sides: u32) -> Cage {
    let ring = (0..sides).map(|i| (i, (i + 1) % sides));
    Cage::of(ring.flat_map(|(i, j)| halves(i, j, j + sides, i + sides)).collect())
}

fn halves(a: u32, b: u32, c: u32, d: u32) -> [[u32; 3]; 2] {
    [[a, b, c], [a, c, d]]
}

/// Triangles all round one inner vertex.
pub fn disc(sides: u32) -> Cage {
    Cage::of((0..sides).map(|i| [i, (i + 1) % sides, sides]).collect())
}

/// Triangles around one boundary vertex.
pub fn open_fan(triangles: u32) -> Cage {
    Cage::of((0..triangles).map(|i| [0, i + 1, i + 2]).collect())
}

/// A zigzag of triangles; one makes a single triangle.
pub fn strip(triangles: u32) -> Cage {
    Cage::of((0..triangles).map(|i| if i % 2 == 0 { [i, i + 1, i + 2] } else { [i + 1, i, i + 2] }).collect())
}

/// Two discs that touch in one vertex, which so has two fans.
pub fn bow_tie() -> Cage {
    Cage::of(vec![[0, 1, 2], [0, 3, 4]])
}

/// Every shape, in small and in high valence.
pub fn shapes() -> Vec<Cage> {
    let mut list = vec![tetrahedron(), foil(), torus(3, 3), torus(3, 5), torus(6, 4), sheet(2, 3), sheet(4, 4)];
    list.extend([3, 4, 5, 6, 7, 8, 9, 10, 11, 12, 13, 14, 40].map(double_pyramid));
    list.extend([3, 5, 12, 30].map(disc));
    list.extend([3, 4, 9].map(band));
    list.push(pierced());
    list.extend([1, 2, 3, 7, 25].map(open_fan));
    list.extend([2, 4, 6, 15].map(strip));
    list.push(foil().with(&foil()).with(&tetrahedron()));
    list.push(disc(4).with(&double_pyramid(4)).with(&strip(1)));
    list.push(torus(3, 4).with(&band(3)));
    list
}
