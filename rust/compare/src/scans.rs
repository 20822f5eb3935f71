//! Scanner files: the call as the library has it, what its answer must be, and the files that are given to it. They have every
//! type, numbers at every border, damaged headers and bodies, wrong faces, and several faults at once.

use crate::random::Random;
use crate::scanner::{Ply, Type, MOST};
use crate::tally::Tally;
use crate::writing;

/// The refusals, each counted.
pub const LIMITS: [u32; 5] = [12, 13, 14, 15, 11];

/// The library's answer, bit by bit.
pub fn call(ply: &[u8], grid: &[i32], out: &mut [u8]) -> u64 {
    let [ply_len, grid_len, out_len] = [ply.len(), grid.len(), out.len()].map(|len| len as u64);
    // SAFETY: the slices are alive for the call, the one that is written overlaps nothing, and the library keeps none.
    unsafe {
        desk::library::desk_scan(
            ply.as_ptr(),
            ply_len,
            grid.as_ptr(),
            grid_len,
            out.as_mut_ptr(),
            out_len,
        )
    }
}

/// What the library must answer: the length of the file; or 1, the number of a refusal and its place.
pub fn packed(said: Result<usize, (u32, usize)>) -> u64 {
    match said {
        Ok(length) => length as u64,
        Err((number, place)) => 1 << 56 | u64::from(number) << 48 | place as u64,
    }
}

/// A scan by both, into an output of this length.
fn scan(tally: &mut Tally, random: &mut Random, ply: &[u8], length: usize) {
    let grid = writing::grid(random);
    tally.scan(random, ply, &grid, length).ok();
}

/// The room for the file of a scanner file, and some bytes more or less.
fn about(random: &mut Random, ply: &Ply) -> usize {
    12 + 16 * ply.faces.len() + 4 - random.below(6)
}

/// A scan of a file whose counts are right, which must become what the third opinion says.
fn whole(tally: &mut Tally, random: &mut Random, ply: &Ply, length: usize) {
    let grid = writing::grid(random);
    tally.scan_whole(random, ply, &grid, length);
}

/// A good file, told with comments, of few vertices and faces.
fn few(random: &mut Random, types: [Type; 3]) -> Ply {
    let (vertices, faces) = (1 + random.below(4), random.below(4));
    Ply::any(random, types, vertices, faces).told(random)
}

/// All of the following. Gives how many scans that were.
pub fn each(tally: &mut Tally) -> usize {
    let before = tally.scans;
    let mut random = Random::new(0);
    for choice in 0..27 {
        tally.seed = choice as u64;
        types(tally, &mut random, choice);
        lengths(tally, &mut random, choice);
        faces(tally, &mut random, choice);
        orders(tally, &mut random, choice);
    }
    for type_ in Type::ALL {
        numbers(tally, &mut random, type_);
    }
    halves(tally, &mut random);
    for seed in 0..3 {
        tally.seed = seed;
        headers(tally, &mut random);
    }
    words(tally, &mut random);
    comments(tally, &mut random);
    counts(tally, &mut random);
    grids(tally, &mut random);
    most(tally, &mut random);
    tally.scans - before
}

/// Files of a choice of types: good ones, and ones with a bad number at each place.
fn types(tally: &mut Tally, random: &mut Random, choice: usize) {
    let types = Type::choice(choice);
    for vertices in 0..6 {
        for faces in 0..4 {
            let ply = Ply::any(random, types, vertices, faces).told(random);
            let length = about(random, &ply);
            whole(tally, random, &ply, length);
            whole(tally, random, &ply, 100);
            for at in 0..3 * vertices {
                let mut bad = ply.clone();
                for at in [at, at + random.below(3 * vertices - at)] {
                    bad.vertices[at / 3][at % 3] = types[at % 3].bad(random);
                }
                whole(tally, random, &bad, length);
            }
        }
    }
}

/// A file with every cut, and with some bytes more; and each byte of its body changed.
fn lengths(tally: &mut Tally, random: &mut Random, choice: usize) {
    let ply = few(random, Type::choice(choice));
    let (file, header) = (ply.write(), ply.header().len());
    for length in 0..file.len() {
        scan(tally, random, &file[..length], 100);
    }
    for more in 1..=17 {
        let bytes = [vec![0; more], random.bytes(more)][random.below(2)].clone();
        scan(tally, random, &[&file[..], &bytes].concat(), 100);
    }
    for at in header..file.len() {
        let mut other = file.clone();
        other[at] = [0, 2, 3, 4, 255, random.next() as u8][random.below(6)];
        scan(tally, random, &other, 100);
    }
}

/// Faces of other corners than three, and of indices that no vertex has.
fn faces(tally: &mut Tally, random: &mut Random, choice: usize) {
    let ply = Ply::any(random, Type::choice(choice), 3, 4);
    let wrong = [3, 4, 256, 65_536, 1 << 24, i32::MAX, i32::MIN, -1, -3];
    for at in 0..4 {
        for corners in [0, 1, 2, 4, 5, 127, 128, 255] {
            let mut other = ply.clone();
            other.faces[at].resize(corners, 0);
            let last = at + random.below(4 - at);
            other.faces[last].resize(corners, 1);
            whole(tally, random, &other, 100);
        }
        for index in wrong {
            let mut other = ply.clone();
            other.faces[at][random.below(3)] = index;
            let last = at + random.below(4 - at);
            other.faces[last][random.below(3)] = wrong[random.below(wrong.len())];
            whole(tally, random, &other, 100);
        }
    }
}

/// A grid, a form, a vertex, a face and an output, each good or bad: the first that is bad is said.
fn orders(tally: &mut Tally, random: &mut Random, choice: usize) {
    let types = Type::choice(choice);
    for bad in 0..32 {
        let is_bad = |fault: usize| bad >> fault & 1 == 1;
        let mut ply = Ply::any(random, types, 4, 3).told(random);
        let (vertex, axis, face) = (random.below(4), random.below(3), random.below(3));
        let mut grid = writing::grid(random);
        if is_bad(0) {
            match random.below(3) {
                0 => grid.truncate(random.below(7)),
                1 => grid.push(1),
                _ => grid[random.below(4)] = [0, -1, 256, i32::MAX][random.below(4)],
            }
        }
        if is_bad(2) {
            ply.vertices[vertex][axis] = types[axis].bad(random);
        }
        if is_bad(3) {
            ply.faces[face] = [vec![0, 4, 0], vec![0, -1, 0], vec![0, 0]][random.below(3)].clone();
        }
        let mut file = ply.write();
        if is_bad(1) {
            match random.below(3) {
                0 => file.push(0),
                1 => drop(file.pop()),
                _ => file[random.below(4)] += 1,
            }
        }
        let length = 60 - usize::from(is_bad(4)) * (1 + random.below(60));
        let places = [0, 0, vertex, face, 0];
        let first = (0..5).find(|&fault| is_bad(fault));
        let wanted = first.map_or(Ok(60), |fault| Err((LIMITS[fault], places[fault])));
        let answer = tally.scan(random, &file, &grid, length);
        if answer != wanted {
            tally.differ_scan(
                &file,
                &grid,
                length,
                &format!("{answer:?}"),
                &format!("{wanted:?}"),
            );
        }
    }
}

/// Numbers of a type on each axis: at the ends, next to them, tiny ones, those that are none, and any bits.
fn numbers(tally: &mut Tally, random: &mut Random, type_: Type) {
    let small = (0..=12).map(|fourths| f64::from(fourths) / 4.0);
    let ends = (4 * 8190..=4 * 8194).map(|fourths| f64::from(fourths) / 4.0);
    let far = (14..70).map(|power| 2f64.powi(power));
    let values = small.chain(ends).chain(far);
    let values = values.flat_map(|value| [value, -value]);
    let mut all: Vec<u64> = values.map(|value| type_.bits(value)).collect();
    all.extend([i32::MAX, i32::MIN, -1].map(|value| type_.bits(f64::from(value))));
    let near: Vec<u64> = all
        .iter()
        .flat_map(|&bits| [bits.wrapping_add(1), bits.wrapping_sub(1)])
        .collect();
    all.extend(near);
    all.extend((0..2_000).map(|_| type_.good(random)));
    all.extend((0..2_000).map(|_| type_.bad(random)));
    all.extend((0..2_000).map(|_| random.next()));
    for bits in all {
        for axis in 0..3 {
            let mut types = Type::choice(random.below(27));
            types[axis] = type_;
            let mut ply = Ply::any(random, types, 1, 1);
            ply.vertices[0][axis] = bits;
            whole(tally, random, &ply, 28);
        }
    }
}

/// Between every two whole numbers of corners the half and the numbers next to it, many in a file.
fn halves(tally: &mut Tally, random: &mut Random) {
    for (first, second) in [(0, 0), (0, 1), (1, 0), (1, 1)] {
        let types = [first, second, second].map(|type_| Type::ALL[type_]);
        let vertex = |low: i64| {
            let half = low as f64 + 0.5;
            let bits = types.map(|type_| type_.bits(half));
            [bits[0], bits[1] - 1, bits[2] + 1]
        };
        let vertices: Vec<_> = (-8192..8191).map(vertex).collect();
        for part in vertices.chunks(3 * MOST) {
            let corners = (0..part.len() as i32).collect::<Vec<_>>();
            let faces = corners.chunks_exact(3).map(<[i32]>::to_vec).collect();
            let ply = Ply::new(types, part.to_vec(), faces);
            let length = 12 + 16 * ply.faces.len();
            whole(tally, random, &ply, length);
        }
    }
}

/// A header with comments, damaged: every cut, every byte changed to every other, every byte left out, and some bytes put in;
/// lines left out, said twice and exchanged.
fn headers(tally: &mut Tally, random: &mut Random) {
    let types = Type::choice(random.below(27));
    let mut ply = Ply::any(random, types, 2, 2);
    ply.comments = vec![
        (random.below(4), b"comment".to_vec()),
        (4 + random.below(4), b"comment of a\rscan\t".to_vec()),
    ];
    ply.counts[random.below(2)].insert(0, '0');
    let (header, body) = (ply.header(), ply.body());
    let mut damaged = |header: &[u8], behind: &[u8]| {
        scan(tally, random, &[header, behind, &body].concat(), 60);
    };
    for at in 0..header.len() {
        let (before, behind) = header.split_at(at);
        damaged(before, &[]);
        damaged(before, &behind[1..]);
        for byte in 0..=u8::MAX {
            damaged(&[before, &[byte]].concat(), &behind[1..]);
        }
        for byte in *b" \t\r\n\x00019cC" {
            damaged(&[before, &[byte]].concat(), behind);
        }
        damaged(&[before, b"\ncomment\n"].concat(), behind);
    }
    let lines: Vec<&[u8]> = header.split_inclusive(|&byte| byte == b'\n').collect();
    for i in 0..lines.len() {
        let (before, behind) = (lines[..i].concat(), lines[i + 1..].concat());
        damaged(&before, &behind);
        damaged(&[&before, lines[i], lines[i]].concat(), &behind);
        for comment in [
            &b"comment\n"[..],
            b"comment end_header\n",
            b"comments\n",
            b"\n",
        ] {
            damaged(&[&before, comment, lines[i]].concat(), &behind);
        }
        for j in 0..i {
            let mut exchanged = lines.clone();
            exchanged.swap(i, j);
            damaged(&exchanged.concat(), &[]);
        }
    }
}

/// Each word of a header in the place of each other, and words that no header has.
fn words(tally: &mut Tally, random: &mut Random) {
    let ply = Ply::any(random, Type::choice(5), 2, 2);
    let (lines, body) = (ply.lines(), ply.body());
    let lines = lines.each_ref().map(|line| line.split(' ').collect());
    let lines: Vec<Vec<&str>> = lines.into();
    let others = "float32 float64 int32 uint short char Float floats in integer X w nx red vertices vertex_index uint8 \
                  ascii binary_big_endian 1.1 1 comment obj_info edge ";
    let others = lines.concat().into_iter().chain(others.split(' '));
    let others: Vec<&str> = others.collect();
    for line in 0..lines.len() {
        for word in 0..lines[line].len() {
            for other in &others {
                let mut lines = lines.clone();
                lines[line][word] = other;
                let lines = lines.iter().map(|line| line.join(" ") + "\n");
                let header = lines.collect::<String>().into_bytes();
                scan(tally, random, &[header, body.clone()].concat(), 60);
            }
        }
    }
}

/// A long comment, and many of them.
fn comments(tally: &mut Tally, random: &mut Random) {
    for line in 0..8 {
        let mut ply = Ply::any(random, Type::choice(line), 2, 2);
        let long = [&b"comment "[..], &[b'a'; 100_000]].concat();
        ply.comments.push((line, long));
        whole(tally, random, &ply, 60);
        ply.comments = vec![(line, b"comment of many".to_vec()); 10_000];
        whole(tally, random, &ply, 60);
    }
}

/// Counts with zeros in front, wrong ones, and ones that overflow numbers of 32, 64 and 128 bits, alone or times a vertex's
/// bytes; and words that are no counts.
fn counts(tally: &mut Tally, random: &mut Random) {
    let right = "2 02 00000000000000000002 000000000000000000000000000000000000000002";
    let wrong = "0 1 3 12 20 4094 4095 4096 4098 65538 99999 1000000000000000000 99999999999999999999 \
                 999999999999999999999999999999 340282366920938463463374607431768211458 -2 +2 2. 2e0 0x2 two 2_ 2,0";
    let odd = ["", " 2", "2 ", "2\r", "2\t", "2\0", "\u{662}"];
    // 2 modulo powers of two, and next to it: as many vertices as 2 have a length that is the same modulo 2^32 or 2^64
    let powers = (27..34).chain(59..66).chain([127]);
    let near = powers.flat_map(|power| (0..4).map(move |by| (1u128 << power) + by));
    let mut near: Vec<u128> = near.collect();
    // about the greatest count whose length is less than 2^32, 2^64 or 2^128
    for width in [12, 16, 20, 24] {
        for length in [1 << 32, 1 << 64, u128::MAX] {
            near.extend((0..4).map(|by| length / width - 1 + by));
        }
    }
    let words = right.split(' ').chain(wrong.split(' ')).chain(odd);
    let words = words.map(str::to_string);
    let words: Vec<String> = words.chain(near.iter().map(u128::to_string)).collect();
    for choice in 0..27 {
        let ply = Ply::any(random, Type::choice(choice), 2, 2);
        for which in 0..2 {
            for word in &words {
                let mut other = ply.clone();
                other.counts[which] = word.clone();
                scan(tally, random, &other.write(), 60);
            }
        }
    }
}

/// Grids at their borders and of other numbers than seven, with files that are good and ones that are not.
fn grids(tally: &mut Tally, random: &mut Random) {
    for choice in 0..27 {
        let ply = few(random, Type::choice(choice));
        let file = ply.write();
        for grid in writing::grids_at_borders(random) {
            let length = about(random, &ply);
            tally.scan_whole(random, &ply, &grid, length);
            let cut = random.below(file.len());
            tally.scan(random, &file[..cut], &grid, length).ok();
        }
    }
}

/// About the most faces, with outputs that are long enough and ones that are not, and a fault in the last of them.
fn most(tally: &mut Tally, random: &mut Random) {
    for (i, count) in [MOST - 1, MOST, MOST + 1, MOST + 2].into_iter().enumerate() {
        for vertices in [1, 2_000] {
            let types = Type::choice(random.below(27));
            let ply = Ply::any(random, types, vertices, count);
            let length = 12 + 16 * count;
            for length in [length, length - 1, length + 5, 12, 0] {
                whole(tally, random, &ply, length);
            }
            let mut other = ply.clone();
            other.faces[count - 1] = [vec![0, 0], vec![0, 0, vertices as i32]][i % 2].clone();
            whole(tally, random, &other, length);
            other.vertices[vertices - 1][2] = types[2].bad(random);
            whole(tally, random, &other, length);
        }
    }
    // more vertices than numbers of 16 bits
    for choice in [0, 13, 26] {
        let types = Type::choice(choice);
        let mut ply = Ply::any(random, types, 70_000, 100);
        whole(tally, random, &ply, 12 + 16 * 100);
        ply.faces[99][1] = 70_000;
        whole(tally, random, &ply, 0);
        for vertex in [69_999, 65_537, 65_536, 65_535] {
            ply.vertices[vertex][1] = types[1].bad(random);
            whole(tally, random, &ply, 0);
        }
    }
}

/// A file by chance: most are good, some have a bad number or face, and some are damaged.
pub fn by_chance(tally: &mut Tally, seed: u64) {
    tally.seed = seed;
    let mut random = Random::new(seed);
    let types = Type::choice(random.below(27));
    let (vertices, faces) = (random.below(8), random.below(6));
    let mut ply = Ply::any(&mut random, types, vertices, faces).told(&mut random);
    if vertices > 0 && random.once_in(4) {
        let axis = random.below(3);
        ply.vertices[random.below(vertices)][axis] = types[axis].bad(&mut random);
    }
    if !ply.faces.is_empty() && random.once_in(4) {
        let face = random.below(ply.faces.len());
        let corners = random.below(6);
        ply.faces[face] = (0..corners).map(|_| random.between(-1, 8) as i32).collect();
    }
    let length = about(&mut random, &ply);
    if !random.once_in(4) {
        return whole(tally, &mut random, &ply, length);
    }
    let mut file = ply.write();
    let at = random.below(file.len());
    match random.below(4) {
        0 => file.truncate(at),
        1 => file.insert(at, random.next() as u8),
        2 => drop(file.remove(at)),
        _ => file[at] ^= 1 << random.below(8),
    }
    scan(tally, &mut random, &file, length);
}
