//! The cases that the program digests reads, and the lines that it must print, from the independent version.

use crate::scene::{Frame, Point};
use independent::{Record, Route};

const FRAMES: u64 = 200;
const ROUTES: u64 = 4;

/// A step of a linear congruential generator of 31 bits, with the halves of the outcome exchanged.
fn step(state: u64) -> u64 {
    let next = (state * 1_103_515_245 + 12_345) % 2_147_483_648;
    next % 65_536 * 32_768 + next / 65_536
}

/// The numbers of one frame.
struct Numbers(u64);

impl Numbers {
    /// Number k, below n: three steps from a start that goes by the frame and k.
    fn draw(&self, k: u64, n: i64) -> i64 {
        (step(step(step(self.0 * 4096 + k))) % n as u64) as i64
    }

    /// Up to 5 triangles in a grid of up to 16 cells a side, and of 64 in each fiftieth frame.
    fn frame(&self) -> Frame {
        let side = |axis: u64| match self.0 % 50 {
            49 => 64,
            _ => 1 + self.draw(axis, 16),
        };
        let mut frame = Frame {
            cells: [side(0), side(1), side(2)],
            edge: 1 + self.draw(3, 12),
            origin: [4, 5, 6].map(|k| self.draw(k, 2001) - 1000),
            triangles: Vec::new(),
        };
        for record in 0..self.draw(7, 6) as u64 {
            frame.triangles.push(Record {
                kind: self.kind(record),
                corners: self.corners(record, &frame),
            });
        }
        frame
    }

    /// Now and then the unused kind.
    fn kind(&self, record: u64) -> i64 {
        match self.draw(16 + record, 64) {
            63 => 3,
            drawn => drawn % 3,
        }
    }

    /// Corners in the grid or up to one cell beside it. Some triangles are segments.
    fn corners(&self, record: u64, frame: &Frame) -> [Point; 3] {
        let corner = |number: u64| {
            [0, 1, 2].map(|axis| {
                let length = frame.cells[axis] * frame.edge;
                let k = 32 + 9 * record + 3 * number + axis as u64;
                frame.origin[axis] - frame.edge + self.draw(k, length + 2 * frame.edge + 1)
            })
        };
        let segment = self.draw(24 + record, 4) == 0;
        [corner(0), corner(1), corner(if segment { 1 } else { 2 })]
    }

    /// Two to five points in the grid, in some routes up to 1 beyond it.
    fn route(&self, route: u64, frame: &Frame) -> Vec<i16> {
        let points = 2 + self.draw(128 + route, 4) as u64;
        let beyond = i64::from(self.draw(136 + route, 4) == 0);
        (0..3 * points)
            .map(|i| {
                let axis = i as usize % 3;
                let length = frame.cells[axis] * frame.edge;
                let along = self.draw(160 + 16 * route + i, length + 1 + beyond);
                (frame.origin[axis] + along) as i16
            })
            .collect()
    }
}

/// A digest of numbers: a polynomial modulo 4,294,967,291.
fn digest(numbers: impl IntoIterator<Item = u64>) -> u64 {
    numbers
        .into_iter()
        .fold(0, |sum, number| (sum * 257 + number) % 4_294_967_291)
}

/// The cases: each frame's file in hexadecimal, the buffer that is lent, and the routes with commas between them.
pub fn print_cases() {
    for index in 0..FRAMES {
        let numbers = Numbers(index);
        let frame = numbers.frame();
        let file: String = frame.write().iter().map(|b| format!("{b:02x}")).collect();
        let routes: Vec<String> = (0..ROUTES)
            .map(|route| words(&numbers.route(route, &frame)))
            .collect();
        println!(
            "given: {file}\nbuffer 32770: aa\ndigest {index}: {}",
            routes.join(", ")
        );
    }
}

/// Numbers with blanks between them.
fn words(numbers: &[i16]) -> String {
    let words: Vec<String> = numbers.iter().map(i16::to_string).collect();
    words.join(" ")
}

/// A line for each frame: its index, the fill's answer, and the digests of the buffer and of the routes' answers.
pub fn print() {
    for index in 0..FRAMES {
        let numbers = Numbers(index);
        let frame = numbers.frame();
        let file = frame.write();
        let mut map = vec![0xaa; 32_770];
        let answer = match independent::fill(&file, &mut map) {
            Ok(count) => format!("FILLED {count}"),
            Err(refusal) => format!("REFUSED {} {}", refusal.number, refusal.place),
        };
        let routes = (0..ROUTES).flat_map(|route| {
            match independent::test_route(&file, &map, &numbers.route(route, &frame)) {
                Ok(Route::Free) => vec![1],
                Ok(Route::Blocked { leg, cell }) => vec![2, leg as u64, cell as u64],
                Err(refusal) => vec![3, u64::from(refusal.number), refusal.place as u64],
            }
        });
        let routes = digest(routes);
        let map = digest(map.iter().map(|&byte| u64::from(byte)));
        println!("{index}: {answer} MAP {map} ROUTES {routes}");
    }
}
