//! Values for the writers: every field at its borders, lists and outputs of many lengths, and many by chance.

use crate::random::Random;
use crate::tally::Tally;

/// The numbers of a grid and of a triangle, and the most triangles.
const GRID: usize = 7;
const TRIANGLE: usize = 10;
const MOST: usize = 4095;

/// What is given to a writer.
#[derive(Clone)]
pub struct Given {
    pub grid: Vec<i32>,
    pub triangles: Vec<i32>,
}

impl Given {
    /// Values in their fields, with far corners up to 8,191, and so many triangles.
    fn any(random: &mut Random, count: usize) -> Given {
        let grid = grid(random);
        let triangles = (0..TRIANGLE * count).map(|at| in_field(random, GRID + at));
        let triangles = triangles.collect();
        Given { grid, triangles }
    }

    /// The same with the lowest origin, from which every grid fits.
    fn lowest(&self) -> Given {
        (4..GRID).fold(self.clone(), |given, at| given.with(at, -8192))
    }

    /// The same with another value at a place. The grid's numbers come first.
    fn with(&self, at: usize, value: i32) -> Given {
        let mut given = self.clone();
        match at.checked_sub(GRID) {
            None => given.grid[at] = value,
            Some(at) => given.triangles[at] = value,
        }
        given
    }

    /// The length of the file.
    fn length(&self) -> usize {
        12 + 16 * (self.triangles.len() / TRIANGLE)
    }
}

/// A grid's values in their fields, with far corners up to 8,191.
pub fn grid(random: &mut Random) -> Vec<i32> {
    let mut grid: Vec<i32> = (0..4).map(|at| in_field(random, at)).collect();
    for axis in 0..3 {
        let far = 8191 - grid[axis] * grid[3];
        grid.push(random.between(-8192, far.into()) as i32);
    }
    grid
}

/// A grid with each number at its borders, from the lowest origin on; with each far corner at 8,191 and one more; and of other
/// numbers than seven.
pub fn grids_at_borders(random: &mut Random) -> Vec<Vec<i32>> {
    let given = Given::any(random, 0).lowest();
    let at_borders = (0..GRID).flat_map(|at| borders(at).map(|value| given.with(at, value)));
    let far = (0..3).flat_map(|axis| {
        let last = 8191 - given.grid[axis] * given.grid[3];
        [last, last + 1].map(|origin| given.with(4 + axis, origin))
    });
    let grids = at_borders.chain(far).map(|given| given.grid);
    let longest = [&given.grid[..], &[1; GRID]].concat();
    let others = (0..longest.len()).map(|numbers| longest[..numbers].to_vec());
    grids.chain(others).collect()
}

/// The least and the greatest value of the field at a place.
fn field(at: usize) -> (i32, i32) {
    match at.checked_sub(GRID).map(|at| at % TRIANGLE) {
        None if at < 3 => (1, 64),
        None if at == 3 => (1, 255),
        Some(0) => (0, 2),
        _ => (-8192, 8191),
    }
}

/// Any value of the field at a place.
fn in_field(random: &mut Random, at: usize) -> i32 {
    let (low, high) = field(at);
    random.between(low.into(), high.into()) as i32
}

/// The values at the borders of a field, one beyond each, and the farthest beyond.
fn borders(at: usize) -> [i32; 6] {
    let (low, high) = field(at);
    [low, high, low - 1, high + 1, i32::MIN, i32::MAX]
}

/// One write, into an output of this length.
fn write(tally: &mut Tally, random: &mut Random, given: &Given, length: usize) {
    tally.write(random, &given.grid, &given.triangles, length);
}

/// Writes into no output, one that is short by one byte, one of the file's length and a longer one.
fn writes(tally: &mut Tally, random: &mut Random, given: &Given) {
    let exact = given.length();
    for length in [0, exact - 1, exact, exact + 1 + random.below(40)] {
        write(tally, random, given, length);
    }
}

/// All of the following. Gives how many writes that were.
pub fn each(tally: &mut Tally) -> usize {
    let before = tally.writes;
    for seed in 0..20 {
        tally.seed = seed;
        let mut random = Random::new(seed);
        let given = Given::any(&mut random, 3);
        at_borders(tally, &mut random, &given);
        at_borders(tally, &mut random, &given.lowest());
        far_corners(tally, &mut random);
        grids(tally, &mut random);
        outputs(tally, &mut random);
    }
    long_lists(tally, &mut Random::new(0));
    tally.writes - before
}

/// Each number of the grid and of three triangles at its borders, alone and with another one.
fn at_borders(tally: &mut Tally, random: &mut Random, given: &Given) {
    let numbers = GRID + given.triangles.len();
    for at in 0..numbers {
        for value in borders(at) {
            let one = given.with(at, value);
            writes(tally, random, &one);
            let other = random.below(numbers);
            let both = one.with(other, borders(other)[random.below(6)]);
            write(tally, random, &both, both.length());
        }
    }
}

/// On each axis every number of cells, with an origin that has its far corner at 8,191, and one more and less.
fn far_corners(tally: &mut Tally, random: &mut Random) {
    let edge = [1, 255, in_field(random, 3)][random.below(3)];
    let given = Given::any(random, 1).with(3, edge).lowest();
    for axis in 0..3 {
        for cells in 1..=64 {
            let last = 8191 - cells * edge;
            for origin in [last - 1, last, last + 1] {
                let given = given.with(axis, cells).with(4 + axis, origin);
                write(tally, random, &given, given.length());
            }
        }
    }
}

/// Grids of other numbers than seven.
fn grids(tally: &mut Tally, random: &mut Random) {
    let mut given = Given::any(random, 1);
    given.grid.extend([1; GRID]);
    while given.grid.pop().is_some() {
        writes(tally, random, &given);
    }
}

/// Short lists with a part of a triangle or none, into outputs of every length up to some bytes more.
fn outputs(tally: &mut Tally, random: &mut Random) {
    let mut given = Given::any(random, 3);
    for numbers in (0..=3 * TRIANGLE).rev() {
        given.triangles.truncate(numbers);
        for length in 0..given.length() + 4 {
            write(tally, random, &given, length);
        }
    }
}

/// Lists of about the most triangles, whole and with a part of one; and with one number outside its field.
fn long_lists(tally: &mut Tally, random: &mut Random) {
    let all = Given::any(random, MOST + 2);
    for count in [MOST - 1, MOST, MOST + 1] {
        for part in 0..TRIANGLE {
            let mut given = all.clone();
            given.triangles.truncate(TRIANGLE * count + part);
            writes(tally, random, &given);
        }
    }
    let mut most = all;
    most.triangles.truncate(TRIANGLE * MOST);
    for at in [0, 1, MOST / 2, MOST - 1] {
        for number in 0..TRIANGLE {
            let at = GRID + TRIANGLE * at + number;
            let given = most.with(at, field(at).1 + 1);
            write(tally, random, &given, given.length());
        }
    }
    tally.read_back(&most.grid, &most.triangles);
}

/// Values by chance: most are in their fields, and some numbers are anything.
pub fn by_chance(tally: &mut Tally, seed: u64) {
    tally.seed = seed;
    let mut random = Random::new(seed);
    let count = random.below(6);
    let mut given = Given::any(&mut random, count);
    for _ in 0..random.below(3) {
        let at = random.below(GRID + given.triangles.len());
        let value = match random.below(3) {
            0 => borders(at)[random.below(6)],
            1 => in_field(&mut random, at),
            _ => random.next() as i32,
        };
        given = given.with(at, value);
    }
    if random.once_in(20) {
        let numbers = random.below(given.triangles.len() + 1);
        given.triangles.truncate(numbers);
    }
    let length = given.length() + 8 - random.below(16);
    write(tally, &mut random, &given, length);
}
