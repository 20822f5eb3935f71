//! Puts the same question to both implementations, and counts.

use crate::bars::{self, Shown};
use crate::clipped::{self, Block};
use crate::random::Random;
use crate::scanner::Ply;
use crate::scans;

/// What was compared, and how often the two differed.
#[derive(Default)]
pub struct Tally {
    pub fills: usize,
    pub accepted: usize,
    pub steps: usize,
    pub routes: usize,
    pub free: usize,
    pub blocked: usize,
    /// The blocked routes by what their blocked leg is like.
    pub kinds: [usize; clipped::KINDS.len()],
    pub readings: usize,
    pub writes: usize,
    pub written: usize,
    pub round_trips: usize,
    pub cells: usize,
    pub behind: usize,
    pub clear: usize,
    pub outside: usize,
    /// The cells with a bar behind them by what it is like.
    pub bars: [usize; bars::KINDS.len()],
    pub scans: usize,
    pub scanned: usize,
    /// The scans that are refused, by their limit.
    pub unscanned: [usize; scans::LIMITS.len()],
    pub failed: usize,
    /// The seed of what is compared now, for the message.
    pub seed: u64,
}

impl Tally {
    /// Counts a difference, and prints the first few with what is needed to see them again.
    fn differ(&mut self, call: &str, file: &[u8], lent: &str, library: &str, apart: &str) {
        self.failed += 1;
        if self.failed <= 10 {
            let file: String = file.iter().map(|byte| format!("{byte:02x}")).collect();
            println!("{call} differs, seed {}\n  file {file}\n  {lent}\n  library {library}\n  independent {apart}", self.seed);
        }
    }

    /// Both fill a buffer of this length with any contents: the answers and all bytes are the same. Gives the library's.
    pub fn fill(&mut self, random: &mut Random, file: &[u8], length: usize) -> Vec<u8> {
        self.fills += 1;
        let before = random.bytes(length);
        let (mut map, mut apart_map) = (before.clone(), before.clone());
        let answer = stall::fill(file, &mut map).map_err(said);
        let apart = independent::fill(file, &mut apart_map).map_err(said_apart);
        let kept = answer.is_ok() || map == before;
        if answer != apart || map != apart_map || !kept {
            let first = map.iter().zip(&apart_map).position(|(a, b)| a != b);
            let lent = format!("buffer of {length} bytes, first differing byte {first:?}");
            self.differ(
                "fill",
                file,
                &lent,
                &format!("{answer:?}"),
                &format!("{apart:?}"),
            );
        }
        self.accepted += usize::from(answer.is_ok());
        map
    }

    /// The library fills in steps what the other fills at once: into a buffer with any contents, ranges of records in any
    /// order, some of them twice, some beyond the last.
    pub fn whole_in_steps(&mut self, random: &mut Random, file: &[u8], length: usize) {
        self.steps += 1;
        let before = random.bytes(length);
        let (mut map, mut apart_map) = (before.clone(), before);
        let apart = independent::fill(file, &mut apart_map);
        let answer = stall::fill_begin(file, &mut map).and_then(|count| {
            let mut ranges = vec![(random.below(count + 2), random.below(count + 2))];
            let mut first = 0;
            while first < count {
                let n = 1 + random.below(count);
                ranges.insert(random.below(ranges.len() + 1), (first, n));
                first += n;
            }
            for (first, n) in ranges {
                stall::fill_some(file, &mut map, first, n)?;
            }
            stall::fill_end(file, &map)
        });
        self.step("whole fill", file, answer, &map, apart, &apart_map);
    }

    /// One range of records joins a buffer with any contents. `part` is the file that has these records alone, and `has` is
    /// how many they are.
    pub fn one_step(
        &mut self,
        random: &mut Random,
        file: &[u8],
        part: &[u8],
        (first, count, has): (usize, usize, usize),
        length: usize,
    ) {
        self.steps += 1;
        let before = random.bytes(length);
        let (mut map, mut added) = (before.clone(), vec![0; length]);
        // a file is refused for any of its records
        let apart = match independent::fill(file, &mut vec![0; length]) {
            Ok(_) => independent::fill(part, &mut added).map(|_| has),
            Err(refusal) => Err(refusal),
        };
        let wanted: Vec<u8> = before.iter().zip(&added).map(|(a, b)| a | b).collect();
        let answer = stall::fill_some(file, &mut map, first, count);
        self.step("step", file, answer, &map, apart, &wanted);
    }

    fn step(
        &mut self,
        call: &str,
        file: &[u8],
        answer: Result<usize, stall::Refusal>,
        map: &[u8],
        apart: Result<usize, independent::Refusal>,
        wanted: &[u8],
    ) {
        let answer = answer.map_err(said);
        let apart = apart.map_err(said_apart);
        if answer != apart || map != wanted {
            let first = map.iter().zip(wanted).position(|(a, b)| a != b);
            let lent = format!(
                "buffer of {} bytes, first differing byte {first:?}",
                map.len()
            );
            self.differ(
                call,
                file,
                &lent,
                &format!("{answer:?}"),
                &format!("{apart:?}"),
            );
        }
    }

    /// Both test a route on a map. Where they do not refuse it, the answer is what the legs say when they are clipped to the
    /// filled cells.
    pub fn route(&mut self, file: &[u8], map: &[u8], numbers: &[i16]) {
        self.routes += 1;
        let answer = stall::test_route_numbers(file, map, numbers)
            .map(|route| match route {
                stall::Route::Free => None,
                stall::Route::Blocked { leg, cell } => Some((leg, cell)),
            })
            .map_err(said);
        let apart = independent::test_route(file, map, numbers)
            .map(|route| match route {
                independent::Route::Free => None,
                independent::Route::Blocked { leg, cell } => Some((leg, cell)),
            })
            .map_err(said_apart);
        if answer != apart {
            self.differ(
                "route",
                file,
                &format!("route {numbers:?}"),
                &format!("{answer:?}"),
                &format!("{apart:?}"),
            );
        }
        if let Ok(answer) = answer {
            self.clipped(file, map, numbers, answer);
        }
        self.free += usize::from(answer == Ok(None));
        self.blocked += usize::from(matches!(answer, Ok(Some(_))));
    }

    /// The answer to a route, leg and cell or none, against its legs clipped to the filled cells.
    fn clipped(
        &mut self,
        file: &[u8],
        map: &[u8],
        numbers: &[i16],
        answer: Option<(usize, usize)>,
    ) {
        let header = stall::read(file, 0).unwrap().header;
        let block = clipped::block(&header, map, numbers);
        let clipped = block.as_ref().map(|block| (block.leg, block.cell));
        if answer != clipped {
            self.differ(
                "clipped route",
                file,
                &format!("route {numbers:?}, clipped {clipped:?}"),
                &format!("{answer:?}"),
                "-",
            );
        }
        if let Some(Block { kinds, .. }) = block {
            for (count, is) in self.kinds.iter_mut().zip(kinds) {
                *count += usize::from(is);
            }
        }
    }

    /// Both read a record, the library into a buffer of this length.
    pub fn read(&mut self, random: &mut Random, file: &[u8], record: usize, length: usize) {
        self.readings += 1;
        let before: Vec<i32> = (0..length).map(|_| random.next() as i32).collect();
        let mut out = before.clone();
        let answer = stall::read_numbers(file, record, &mut out);
        let (apart, numbers) = match independent::read(file, record) {
            Err(refusal) => {
                let limit = u8::try_from(refusal.number).ok();
                let refusal = stall::Refusal {
                    limit: limit.and_then(stall::Limit::from_number).unwrap(),
                    place: refusal.place,
                };
                (Err(stall::NotRead::Refused(refusal)), Vec::new())
            }
            Ok((header, record)) => {
                let numbers = numbers(&header, record);
                if numbers.len() <= length {
                    (Ok(numbers.len()), numbers)
                } else {
                    (
                        Err(stall::NotRead::Short {
                            wanted: numbers.len(),
                        }),
                        Vec::new(),
                    )
                }
            }
        };
        let mut wanted = before;
        wanted[..numbers.len()].copy_from_slice(&numbers);
        if answer != apart || out != wanted {
            let lent = format!("record {record}, room for {length}: {out:?}");
            self.differ(
                "read",
                file,
                &lent,
                &format!("{answer:?}"),
                &format!("{apart:?}, {wanted:?}"),
            );
        }
    }

    /// Both are asked for the bar behind a cell, the library with room for so many weights, of any contents: each bit of the
    /// answer is as wanted, the weights show that the triangle reaches the cell, and all other numbers are as they were. The
    /// wrapper gives the same. Gives whether there is a bar; none where the call is refused.
    pub fn bar(
        &mut self,
        random: &mut Random,
        file: &[u8],
        cell: usize,
        length: usize,
    ) -> Option<bool> {
        self.cells += 1;
        let before: Vec<i64> = (0..length).map(|_| random.next() as i64).collect();
        let mut weights = before.clone();
        let answer = bars::call(file, cell, &mut weights);
        let wrapped = desk::bar(file, cell).map_err(said);
        let apart = independent::bar(file, cell).map_err(said_apart);
        let record = wrapped.map(|bar| bar.map(|bar| bar.record));
        let mut good = answer == bars::packed(apart, length) && record == apart;
        let mut written = 0;
        if let (Ok(Some(bar)), Ok(Some(record))) = (wrapped, apart) {
            let shown = Shown::new(file, cell, record);
            good &= shown.by(bar.weights);
            if let Some(first) = weights.first_chunk() {
                written = first.len();
                good &= shown.by(*first);
            }
            for (count, is) in self.bars.iter_mut().zip(shown.kinds()) {
                *count += usize::from(is);
            }
        }
        if !good || weights[written..] != before[written..] {
            let lent = format!("cell {cell}, room for {length}: {before:?}, then {weights:?}");
            self.differ(
                "bar",
                file,
                &lent,
                &format!("{answer:#018x}, {wrapped:?}"),
                &format!("{apart:?}"),
            );
        }
        self.behind += usize::from(matches!(apart, Ok(Some(_))));
        self.clear += usize::from(apart == Ok(None));
        self.outside += usize::from(apart == Err((16, 0)));
        apart.ok().map(|record| record.is_some())
    }

    /// A bar is behind each filled cell of a map that a fill left, and behind no other.
    pub fn bar_of_map(&mut self, random: &mut Random, file: &[u8], map: &[u8], cell: usize) {
        let length = random.below(6);
        let filled = map[cell / 8] & 0x80 >> (cell % 8) != 0;
        let bar = self.bar(random, file, cell, length);
        if bar.is_some_and(|bar| bar != filled) {
            let lent = format!("cell {cell}, filled: {filled}");
            self.differ("map and bar", file, &lent, &format!("{bar:?}"), "-");
        }
    }

    /// Both write into an output of this length with any contents: the answers and all bytes are the same, and a refusal
    /// changes none. A short list that is written reads back as it was given.
    pub fn write(&mut self, random: &mut Random, grid: &[i32], triangles: &[i32], length: usize) {
        self.writes += 1;
        let before = random.bytes(length);
        let (mut out, mut apart_out) = (before.clone(), before.clone());
        let answer = desk::write_numbers(grid, triangles, &mut out).map_err(said);
        let apart = independent::write_file(grid, triangles, &mut apart_out).map_err(said_apart);
        let kept = answer.is_ok() || out == before;
        if answer != apart || out != apart_out || !kept {
            let first = out.iter().zip(&apart_out).position(|(a, b)| a != b);
            let lent = format!(
                "{}\n  output of {length} bytes, first differing byte {first:?}",
                shown(grid, triangles)
            );
            self.differ(
                "write",
                &[],
                &lent,
                &format!("{answer:?}"),
                &format!("{apart:?}"),
            );
        }
        self.written += usize::from(answer.is_ok());
        if answer.is_ok() && triangles.len() <= 100 {
            self.read_back(grid, triangles);
        }
    }

    /// Both read a scanner file into an output of this length with any contents: each bit of the answer is as wanted, all bytes
    /// are the same, and a refusal changes none. The wrapper does the same. Gives the answer.
    pub fn scan(
        &mut self,
        random: &mut Random,
        ply: &[u8],
        grid: &[i32],
        length: usize,
    ) -> Result<usize, (u32, usize)> {
        self.scans += 1;
        let before = random.bytes(length);
        let [mut out, mut wrapped_out, mut apart_out] = [0; 3].map(|_| before.clone());
        let answer = scans::call(ply, grid, &mut out);
        let wrapped = desk::scan_numbers(ply, grid, &mut wrapped_out).map_err(said);
        let apart = independent::scan(ply, grid, &mut apart_out).map_err(said_apart);
        let kept = wrapped.is_ok() || out == before;
        let same = out == apart_out && wrapped_out == apart_out;
        if answer != scans::packed(apart) || wrapped != apart || !same || !kept {
            let first = out.iter().zip(&apart_out).position(|(a, b)| a != b);
            let answer = format!("{answer:#018x}, {wrapped:?}, first differing byte {first:?}");
            self.differ_scan(ply, grid, length, &answer, &format!("{apart:?}"));
        }
        match apart {
            Ok(_) => self.scanned += 1,
            Err((number, _)) => {
                let limit = scans::LIMITS.iter().position(|&limit| limit == number);
                self.unscanned[limit.unwrap()] += 1;
            }
        }
        wrapped
    }

    /// The same of a file whose counts are right. What the third opinion says is said; where it gives triangles and there is
    /// room for them, the file is the one that the writer writes from them.
    pub fn scan_whole(&mut self, random: &mut Random, ply: &Ply, grid: &[i32], length: usize) {
        let file = ply.write();
        let answer = self.scan(random, &file, grid, length);
        let (mut out, mut wanted) = (vec![0; length], vec![0; length]);
        let third = desk::write_numbers(grid, &[], &mut [0; 12])
            .map_err(said)
            .and_then(|_| ply.triangles())
            .and_then(|list| desk::write_numbers(grid, &list, &mut wanted).map_err(said));
        desk::scan_numbers(&file, grid, &mut out).ok();
        if answer != third || out != wanted {
            let third = format!("by floats {third:?}");
            self.differ_scan(&file, grid, length, &format!("{answer:?}"), &third);
        }
    }

    /// Counts a difference of scans, and says of a long file its beginning.
    pub fn differ_scan(
        &mut self,
        ply: &[u8],
        grid: &[i32],
        length: usize,
        library: &str,
        other: &str,
    ) {
        let first = &ply[..ply.len().min(2_000)];
        let text = String::from_utf8_lossy(first);
        let lent = format!(
            "{} bytes, {text:?}, grid {grid:?}, output of {length} bytes",
            ply.len()
        );
        self.differ("scan", first, &lent, library, other);
    }

    /// What is written reads back as the values given, all of them.
    pub fn read_back(&mut self, grid: &[i32], triangles: &[i32]) {
        self.round_trips += 1;
        let mut file = vec![0; desk::file_len(triangles.len() / 10)];
        let answer = desk::write_numbers(grid, triangles, &mut file).map_err(said);
        let read = values(&file);
        let given = Some((grid.to_vec(), triangles.to_vec()));
        if answer != Ok(file.len()) || read != given {
            let read = read.map(|(grid, triangles)| shown(&grid, &triangles));
            self.differ(
                "reading back",
                &file,
                &shown(grid, triangles),
                &format!("{answer:?}, {read:?}"),
                "-",
            );
        }
    }

    /// Where a file is accepted, writing all that is read from it gives its bytes and its length.
    pub fn write_back(&mut self, file: &[u8]) {
        let Some((grid, triangles)) = values(file) else {
            return;
        };
        self.round_trips += 1;
        let mut out = vec![0xaa; file.len() + 1];
        let answer = desk::write_numbers(&grid, &triangles, &mut out).map_err(said);
        if answer != Ok(file.len()) || out != [file, &[0xaa]].concat() {
            self.differ(
                "writing back",
                file,
                &shown(&grid, &triangles),
                &format!("{answer:?}, {out:?}"),
                "-",
            );
        }
    }
}

/// The number and the place of the library's refusal.
fn said(refusal: stall::Refusal) -> (u32, usize) {
    (u32::from(refusal.limit.number()), refusal.place)
}

/// The same of the other's.
fn said_apart(refusal: independent::Refusal) -> (u32, usize) {
    (refusal.number, refusal.place)
}

/// What a file holds, by the library's reading: the numbers of its grid and of its triangles; none where it is refused.
fn values(file: &[u8]) -> Option<(Vec<i32>, Vec<i32>)> {
    let mut numbers = [0; stall::READ_NUMBERS];
    stall::read_numbers(file, 0, &mut numbers).ok()?;
    let (grid, count) = (numbers[1..8].to_vec(), numbers[8] as usize);
    let mut triangles = Vec::new();
    for record in 0..count {
        stall::read_numbers(file, record, &mut numbers).ok()?;
        triangles.extend(&numbers[9..]);
    }
    Some((grid, triangles))
}

/// The values given to a writer, for a message: of a long list its beginning.
fn shown(grid: &[i32], triangles: &[i32]) -> String {
    let first = &triangles[..triangles.len().min(60)];
    format!(
        "grid {grid:?}, {} numbers of triangles: {first:?}",
        triangles.len()
    )
}

/// A reading's numbers in the order of the library's buffer.
fn numbers(header: &independent::Header, record: Option<independent::Record>) -> Vec<i32> {
    let mut numbers = vec![header.version];
    numbers.extend(header.cells);
    numbers.push(header.edge);
    numbers.extend(header.origin);
    numbers.push(header.count as i64);
    if let Some(record) = record {
        numbers.push(record.kind);
        numbers.extend(record.corners.iter().flatten());
    }
    numbers.into_iter().map(|number| number as i32).collect()
}
