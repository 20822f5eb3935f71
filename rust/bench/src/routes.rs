//! Route tests: four ways to test a route against a map, and the routes that they are measured on.

use crate::coming::{comes_to, Cell, Coming, Fraction, START};
use crate::frame::{Frame, Grid};
use crate::peers::corner;
use crate::printed;
use crate::rule::{cells_of_box, Block, Point, Setup, Triangle, PLANES};
use crate::runs;
use crate::scenes::{self, Random};
use stall::{Limit, Refusal, Route};
use std::collections::HashSet;
use std::iter;

/// What a route test answers.
pub type Answer = Result<Route, Refusal>;

/// A route test of a file, a map, and the points' numbers: x, y and z in turn.
pub type Test = fn(&[u8], &[u8], &[i16]) -> Answer;

/// The peers by name. The first is the verified library.
pub const PEERS: [(&str, Test); 4] = [
    ("rattle", stall::test_route_numbers),
    ("rows", rows),
    ("box", whole_box),
    ("cells", each_cell),
];

/// Tests a route by a way to search a leg's box of cells for the one, of those that are filled and touched,
/// that the leg reaches first.
#[inline(always)]
fn test_by(
    file: &[u8],
    map: &[u8],
    numbers: &[i16],
    search: impl Fn(&Grid, &[u8], &Triangle, Block) -> Option<usize>,
) -> Answer {
    let grid = questions(file, map, numbers)?;
    for m in 0..numbers.len() / 3 - 1 {
        let [a, b] = [m, m + 1].map(|m| point(&numbers[3 * m..]));
        let leg = [a, b, b];
        let found = cells_of_box(&leg, &grid).and_then(|block| search(&grid, map, &leg, block));
        if let Some(cell) = found {
            return Ok(Route::Blocked { leg: m, cell });
        }
    }
    Ok(Route::Free)
}

/// Questions 1 to 10, in turn.
fn questions(file: &[u8], map: &[u8], numbers: &[i16]) -> Result<Grid, Refusal> {
    let grid = Frame::read(file, map.len())?.grid;
    if !(2..=64).contains(&(numbers.len() / 3)) || !numbers.len().is_multiple_of(3) {
        return Err(Refusal {
            limit: Limit::PointCount,
            place: 0,
        });
    }
    let outside = |p: Point| {
        let far = |w: usize| grid.origin[w] + grid.cells[w] as i64 * grid.edge;
        (0..3).any(|w| p[w] < grid.origin[w] || far(w) < p[w])
    };
    match numbers.chunks_exact(3).position(|p| outside(point(p))) {
        Some(i) => Err(Refusal {
            limit: Limit::PointOutside,
            place: i,
        }),
        None => Ok(grid),
    }
}

/// The point of the first three numbers.
fn point(numbers: &[i16]) -> Point {
    [0, 1, 2].map(|w| numbers[w] as i64)
}

/// The number of cell (i, j, k).
#[inline(always)]
fn number(grid: &Grid, i: usize, j: usize, k: usize) -> usize {
    i + grid.cells[0] * (j + grid.cells[1] * k)
}

/// Is cell n filled?
#[inline(always)]
fn is_filled(map: &[u8], n: usize) -> bool {
    map[n / 8] & (128 >> (n % 8)) != 0
}

// ---- rows and cells, without the rows that lie outside of the slab in YZ: as the library does

/// A leg in the plane of two axes: the cells with the numbers i and j there at which
/// a × i + b × j + c is from 0 to `reach`. a is not negative.
struct Slab {
    a: i64,
    b: i64,
    c: i64,
    reach: i64,
}

impl Slab {
    /// The slab in the plane that axis w stands upright on. The leg is taken in the direction in which
    /// it does not rise on the plane's second axis.
    fn new([from, to, _]: &Triangle, grid: &Grid, w: usize) -> Slab {
        let ((u, v), s) = (PLANES[w], grid.edge);
        let (p, q) = (from[u] - grid.origin[u], from[v] - grid.origin[v]);
        let turn = if to[v] > from[v] { -1 } else { 1 };
        let (a, b) = (turn * (from[v] - to[v]), turn * (to[u] - from[u]));
        Slab {
            a: s * a,
            b: s * b,
            c: s * (a + b.max(0)) - (a * p + b * q),
            reach: s * (a + b.abs()),
        }
    }

    /// Does the cell with the numbers i and j lie in the slab?
    #[inline(always)]
    fn holds(&self, i: usize, j: usize) -> bool {
        (0..=self.reach).contains(&(self.a * i as i64 + self.b * j as i64 + self.c))
    }
}

/// First the lowest cell that is filled and touched; where there is one, a second search from there on for
/// the one that the leg reaches first.
fn rows(file: &[u8], map: &[u8], numbers: &[i16]) -> Answer {
    test_by(file, map, numbers, |grid, map, leg, block| {
        let slabs = [0, 1, 2].map(|w| Slab::new(leg, grid, w));
        let lowest = lowest_touched(grid, map, &slabs, &block)?;
        let [i, j, k] = first_reached(grid, map, leg, &slabs, &block, lowest);
        Some(number(grid, i, j, k))
    })
}

/// The lowest filled cell of a leg's box that lies in its slabs. The rows of a layer that lie in the slab
/// in YZ are one range, sought from that of the layer below.
fn lowest_touched(grid: &Grid, map: &[u8], slabs: &[Slab; 3], block: &Block) -> Option<Cell> {
    let [yz, zx, xy] = slabs;
    let [x, y, z] = block;
    let y = y.start as i64..y.end as i64;
    let mut near = y.start;
    for k in z.clone() {
        let rows = runs::in_slab(&y, near, yz.a, yz.b * k as i64 + yz.c, yz.reach);
        near = rows.start;
        for j in rows.start as usize..rows.end as usize {
            let row = number(grid, 0, j, k);
            let (mut n, end) = (row + x.start, row + x.end);
            while let Some(found) = next_filled(map, n, end) {
                let i = found - row;
                if xy.holds(i, j) && zx.holds(k, i) {
                    return Some([i, j, k]);
                }
                n = found + 1;
            }
        }
    }
    None
}

/// Of the filled cells of a leg's box that lie in its slabs, the one that it reaches first, where the
/// lowest of them is known. Layers and rows that it does not come to before the best one so far are skipped,
/// and of a row's cells only those in the slab in XY are looked at, sought from the best one's place in its row.
fn first_reached(
    grid: &Grid,
    map: &[u8],
    leg: &Triangle,
    slabs: &[Slab; 3],
    block: &Block,
    lowest: Cell,
) -> Cell {
    let [yz, zx, xy] = slabs;
    let [x, y, z] = block;
    let comings = [0, 1, 2].map(|w| Coming::new(leg, grid, w));
    let (mut best, mut least) = (lowest, comes_to(&comings, lowest));
    let [x, y] = [x, y].map(|run| run.start as i64..run.end as i64);
    let mut near = lowest[1] as i64;
    for k in lowest[2]..z.end {
        let layer = START.or_later(comings[2].at(k));
        if !layer.is_before(least) {
            continue;
        }
        let rows = runs::in_slab(&y, near, yz.a, yz.b * k as i64 + yz.c, yz.reach);
        near = rows.start;
        for j in rows.start as usize..rows.end as usize {
            let in_row = layer.or_later(comings[1].at(j));
            if !in_row.is_before(least) {
                continue;
            }
            let near = best[0] as i64;
            let cells = runs::in_slab(&x, near, xy.a, xy.b * j as i64 + xy.c, xy.reach);
            let row = number(grid, 0, j, k);
            let (mut n, end) = (row + cells.start as usize, row + cells.end as usize);
            while let Some(found) = next_filled(map, n, end) {
                let i = found - row;
                if zx.holds(k, i) {
                    let in_cell = in_row.or_later(comings[0].at(i));
                    if in_cell.is_before(least) {
                        (best, least) = ([i, j, k], in_cell);
                    }
                }
                n = found + 1;
            }
        }
    }
    best
}

/// The first filled cell from n on and below `end`. Bytes with no filled cell are skipped.
fn next_filled(map: &[u8], mut n: usize, end: usize) -> Option<usize> {
    while n < end {
        if map[n / 8] == 0 {
            n = (n | 7) + 1;
        } else if is_filled(map, n) {
            return Some(n);
        } else {
            n += 1;
        }
    }
    None
}

// ---- every cell of a leg's box of cells: the overlap test, then the map's bit, then when the leg comes to it

/// The plain three loops. The compiler moves the edges in the plane YZ out of the innermost, so that
/// the rows that these rule out are skipped here too.
fn whole_box(file: &[u8], map: &[u8], numbers: &[i16]) -> Answer {
    scan_by(file, map, numbers, Setup::overlaps)
}

/// The same with a test of its own for every cell.
fn each_cell(file: &[u8], map: &[u8], numbers: &[i16]) -> Answer {
    #[inline(never)]
    fn overlaps(setup: &Setup, p: Point) -> bool {
        setup.overlaps(p)
    }
    scan_by(file, map, numbers, overlaps)
}

/// The scan of the whole box, by a test of the cell with a lowest corner. At the first cell that is filled
/// and touched it is scanned again, for the one that the leg reaches first.
#[inline(always)]
fn scan_by(
    file: &[u8],
    map: &[u8],
    numbers: &[i16],
    overlaps: impl Fn(&Setup, Point) -> bool,
) -> Answer {
    test_by(file, map, numbers, |grid, map, leg, block| {
        let setup = Setup::new(leg, grid.edge);
        let [x, y, z] = block.clone();
        for k in z {
            for j in y.clone() {
                for i in x.clone() {
                    let n = number(grid, i, j, k);
                    if overlaps(&setup, corner(grid, i, j, k)) && is_filled(map, n) {
                        return first_of_box(grid, map, leg, block);
                    }
                }
            }
        }
        None
    })
}

/// Of the cells of a leg's box that are filled and touched, the one that it reaches first. It stands apart:
/// with fractions in the scan above, the compiler leaves the edges in YZ in the innermost loop.
#[inline(never)]
fn first_of_box(grid: &Grid, map: &[u8], leg: &Triangle, [x, y, z]: Block) -> Option<usize> {
    let setup = Setup::new(leg, grid.edge);
    let comings = [0, 1, 2].map(|w| Coming::new(leg, grid, w));
    let mut first: Option<(Fraction, usize)> = None;
    for k in z {
        for j in y.clone() {
            for i in x.clone() {
                let n = number(grid, i, j, k);
                if is_filled(map, n) && setup.overlaps(corner(grid, i, j, k)) {
                    let fraction = comes_to(&comings, [i, j, k]);
                    if first.is_none_or(|(least, _)| fraction.is_before(least)) {
                        first = Some((fraction, n));
                    }
                }
            }
        }
    }
    first.map(|(_, n)| n)
}

// ---- the routes to measure

/// The points of a route, and how many are proposed for each.
const POINTS: usize = stall::POINTS_MOST;
const PROPOSED: usize = 200;

/// A file with the map of its fill.
pub struct Scene {
    pub file: Vec<u8>,
    pub map: Vec<u8>,
}

impl Scene {
    /// The map of a file that is accepted.
    fn new(file: Vec<u8>) -> Option<Scene> {
        let mut map = vec![0; stall::MAP_MOST];
        stall::fill(&file, &mut map).ok()?;
        Some(Scene { file, map })
    }

    /// A scene by its name, in 64 × 64 × 64 cells.
    fn named(scene: &str) -> Scene {
        Scene::new(scenes::file(scene, 64)).unwrap()
    }

    /// What Rust says of one leg.
    fn leg(&self, from: Point, to: Point) -> Answer {
        rows(&self.file, &self.map, &numbers(&[from, to]))
    }

    /// The answer of all the peers.
    fn agree(&self, numbers: &[i16]) -> Answer {
        let [first, others @ ..] = PEERS.map(|(_, test)| test(&self.file, &self.map, numbers));
        for other in others {
            assert!(first == other, "routes differ: {first:?}, {other:?}");
        }
        first
    }
}

/// The numbers of points: x, y and z in turn.
fn numbers(points: &[Point]) -> Vec<i16> {
    points.iter().flatten().map(|x| *x as i16).collect()
}

/// The square of the distance of two points.
fn distance([a, b]: [Point; 2]) -> i64 {
    (0..3).map(|w| (a[w] - b[w]).pow(2)).sum()
}

/// A point of a grid's closed box, its outermost included.
fn any_point(random: &mut Random, grid: &Grid) -> Point {
    [0, 1, 2].map(|w| grid.origin[w] + random.between(0, grid.cells[w] as i64 * grid.edge))
}

/// Of some proposed points, the farthest to which the leg is free, or blocked, as wanted.
fn farthest(
    scene: &Scene,
    from: Point,
    free: bool,
    propose: impl FnMut() -> Point,
) -> Option<Point> {
    let mut proposed: Vec<Point> = iter::repeat_with(propose).take(PROPOSED).collect();
    proposed.sort_by_key(|to| -distance([from, *to]));
    let mut proposed = proposed.into_iter();
    proposed.find(|to| (scene.leg(from, *to) == Ok(Route::Free)) == free)
}

/// Points whose legs are free among rails that lie anywhere. Their boxes of cells are slim.
fn slim(random: &mut Random, scene: &Scene, count: usize) -> Vec<Point> {
    let grid = scenes::grid(64);
    let mut points = vec![];
    while points.is_empty() {
        let p = any_point(random, &grid);
        if scene.leg(p, p) == Ok(Route::Free) {
            points.push(p);
        }
    }
    while points.len() < count {
        let from = points[points.len() - 1];
        points.extend(farthest(scene, from, true, || any_point(random, &grid)));
    }
    points
}

/// Points whose legs go from corner to corner of the middle half, where no rail is. Their boxes of
/// cells have 32 × 64 × 64 cells.
fn wide(random: &mut Random, count: usize) -> Vec<Point> {
    (0..count)
        .map(|m| scenes::near_corner(random, m % 2 == 1))
        .collect()
}

/// The routes to measure: the shape of the legs' boxes, and the answer.
pub const ROUTES: [(&str, &str); 4] = [
    ("slim", "free"),
    ("slim", "blocked"),
    ("wide", "free"),
    ("wide", "blocked"),
];

/// A route of 63 legs with its scene. It is free; or blocked, by its last leg alone.
pub fn route(shape: &str, answer: &str) -> (Scene, Vec<i16>) {
    let mut random = Random(3);
    let free = match answer {
        "free" => POINTS,
        "blocked" => POINTS - 1,
        _ => panic!("no answer {answer}"),
    };
    let (scene, mut points);
    match shape {
        "slim" => {
            scene = Scene::named("rails");
            points = slim(&mut random, &scene, free);
        }
        "wide" => {
            scene = Scene::named("sides");
            points = wide(&mut random, free);
        }
        _ => panic!("no shape {shape}"),
    }
    let grid = scenes::grid(64);
    while points.len() < POINTS {
        let from = points[points.len() - 1];
        points.extend(farthest(&scene, from, false, || {
            any_point(&mut random, &grid)
        }));
    }
    (scene, numbers(&points))
}

// ---- the blocked legs to measure

/// How many there are in a measurement. Each is a route of its own, since a route ends at its first blocked
/// leg.
const LEGS: usize = 64;

/// The scenes that they are measured in.
pub const LEG_SCENES: [&str; 3] = ["rails", "plates", "outside"];

/// Where they go: far away, from a filled cell or from one that is not filled; or from corner to corner of the
/// grid, rising or falling on z.
pub const WAYS: [&str; 4] = ["from", "into", "up", "down"];

/// A scene, and the numbers of blocked legs in it. On each axis half of them rise and half of them fall, in all
/// combinations; on z, where the way says so, all of them do one or the other.
pub fn legs(scene: &str, way: &str) -> (Scene, Vec<Vec<i16>>) {
    let (scene, mut random) = (Scene::named(scene), Random(5));
    let mut legs = vec![];
    while legs.len() < LEGS {
        let rises = [0, 1, 2].map(|w| match (w, way) {
            (2, "up" | "down") => way == "up",
            _ => legs.len() >> w & 1 == 1,
        });
        let leg = match way {
            "from" | "into" => far_leg(&mut random, &scene, way == "from", rises),
            "up" | "down" => Some(across(&mut random, rises)),
            _ => panic!("no way {way}"),
        };
        legs.extend(leg.filter(|[from, to]| scene.leg(*from, *to) != Ok(Route::Free)));
    }
    (scene, legs.iter().map(|leg| numbers(leg)).collect())
}

/// A blocked leg from any cell to the farthest of the points proposed, with the axes on which it rises. None
/// where the cell is not filled as wanted, or no leg is blocked.
fn far_leg(
    random: &mut Random,
    scene: &Scene,
    filled: bool,
    rises: [bool; 3],
) -> Option<[Point; 2]> {
    let grid = scenes::grid(64);
    let cell @ [i, j, k] = [(); 3].map(|_| random.between(0, 63) as usize);
    if is_filled(&scene.map, number(&grid, i, j, k)) != filled {
        return None;
    }
    let from = inside(random, &grid, cell);
    let to = farthest(scene, from, false, || beyond(random, &grid, from, rises))?;
    Some([from, to])
}

/// A leg from a corner of the grid to the opposite one, with the axes on which it rises.
fn across(random: &mut Random, rises: [bool; 3]) -> [Point; 2] {
    let first = rises.map(|rises| if rises { 0 } else { 63 });
    let last = first.map(|i| 63 - i);
    [first, last].map(|cell| inside(random, &scenes::grid(64), cell))
}

/// A point inside a cell, on none of its faces.
fn inside(random: &mut Random, grid: &Grid, [i, j, k]: Cell) -> Point {
    corner(grid, i, j, k).map(|x| x + random.between(1, grid.edge - 1))
}

/// A point of the grid that is above another on the axes on which a leg rises, and below it on the others.
fn beyond(random: &mut Random, grid: &Grid, from: Point, rises: [bool; 3]) -> Point {
    [0, 1, 2].map(|w| {
        let far = grid.origin[w] + grid.cells[w] as i64 * grid.edge;
        if rises[w] {
            random.between(from[w] + 1, far)
        } else {
            random.between(grid.origin[w], from[w] - 1)
        }
    })
}

// ---- the check

/// A route of any shape in a grid, or one that breaks a limit. In half of the routes most values are those of
/// planes between cells, so that legs run along faces and edges, and through corners.
fn any_route(random: &mut Random, grid: &Grid) -> Vec<i16> {
    let count = match random.between(0, 9) {
        0 => 1,
        1 => 65,
        2 => 64,
        _ => random.between(2, 5),
    };
    let mut points: Vec<Point> = (0..count).map(|_| any_point(random, grid)).collect();
    if random.between(0, 1) == 1 {
        for point in &mut points {
            let on_plane = [0; 3].map(|_| random.between(0, 2) > 0);
            for w in (0..3).filter(|w| on_plane[*w]) {
                point[w] -= (point[w] - grid.origin[w]) % grid.edge;
            }
        }
    }
    let at = random.between(0, count - 1) as usize;
    match random.between(0, 9) {
        0 => points[at][1] = grid.origin[1] - 1,
        1 => points[at][2] = grid.origin[2] + grid.cells[2] as i64 * grid.edge + 1,
        2 => points[at] = points[0],
        _ => {}
    }
    let mut numbers = numbers(&points);
    if random.between(0, 9) == 0 {
        numbers.push(0);
    }
    numbers
}

/// Holds the peers to each other on the routes to measure, which are as said.
fn check_measured() {
    let grid = scenes::grid(64);
    for (shape, answer) in ROUTES {
        let (scene, numbers) = route(shape, answer);
        match scene.agree(&numbers) {
            Ok(Route::Free) => assert!(answer == "free", "{shape} {answer}"),
            Ok(Route::Blocked { leg: 62, .. }) => assert!(answer == "blocked", "{shape} {answer}"),
            other => panic!("{shape} {answer}: {other:?}"),
        }
        if (shape, answer) == ("wide", "free") {
            let legs: HashSet<&[i16]> = numbers.windows(6).step_by(3).collect();
            assert!(legs.len() == POINTS - 1, "two legs are alike");
            for leg in legs {
                let [a, b] = [point(leg), point(&leg[3..])];
                assert!(cells_of_box(&[a, b, b], &grid) == Some([16..48, 0..64, 0..64]));
            }
        }
    }
}

/// Holds the peers to each other on the blocked legs to measure, which are as said. Gives how many there are.
fn check_legs() -> usize {
    let mut count = 0;
    for scene in LEG_SCENES {
        for way in WAYS {
            let (scene, legs) = legs(scene, way);
            for numbers in &legs {
                match scene.agree(numbers) {
                    Ok(Route::Blocked { leg: 0, .. }) => count += 1,
                    other => panic!("{way} {numbers:?}: {other:?}"),
                }
                let from = point(numbers);
                let starts_in_steel = scene.leg(from, from) != Ok(Route::Free);
                assert!(way != "from" || starts_in_steel, "{way} {numbers:?}");
                assert!(way != "into" || !starts_in_steel, "{way} {numbers:?}");
            }
        }
    }
    count
}

/// Holds the peers to each other and, on small grids, to the rule as printed.
pub fn check() {
    check_measured();
    let legs = check_legs();
    let rails = Scene::named("rails");
    let mut random = Random(4);
    let mut counts = [0; 3];
    let mut count = |answer: Answer| match answer {
        Ok(Route::Free) => counts[0] += 1,
        Ok(Route::Blocked { .. }) => counts[1] += 1,
        Err(_) => counts[2] += 1,
    };
    for _ in 0..300 {
        count(rails.agree(&any_route(&mut random, &scenes::grid(64))));
    }
    for _ in 0..2000 {
        let scene = Scene::new(scenes::any_file(&mut random)).unwrap();
        let grid = Frame::read(&scene.file, scene.map.len()).ok().unwrap().grid;
        let numbers = any_route(&mut random, &grid);
        let answer = scene.agree(&numbers);
        let expected = printed::test_route(&scene.file, &scene.map, &numbers);
        assert!(answer == expected, "printed rule: {answer:?}, {expected:?}");
        count(answer);
    }
    let [free, blocked, refused] = counts;
    println!(
        "4 measured, {free} free, {blocked} blocked and {refused} refused routes, {legs} blocked legs: all alike"
    );
}
