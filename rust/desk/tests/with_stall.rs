//! Both libraries in one program: what one writes, the other reads, fills and tests routes on.

use desk::{Grid, Kind, Limit, Refusal, Triangle};

const GRID: Grid = Grid {
    cells: [2; 3],
    edge: 10,
    origin: [0; 3],
};

const TRIANGLES: [Triangle; 2] = [
    Triangle {
        kind: Kind::Frame,
        corners: [[1, 20, 5], [20, 20, 5], [20, 1, 5]],
    },
    Triangle {
        kind: Kind::ExitGate,
        corners: [[-8192, 8191, 30]; 3],
    },
];

/// The file of some triangles.
fn file(triangles: &[Triangle]) -> Vec<u8> {
    let mut file = vec![0; desk::file_len(triangles.len())];
    let length = desk::write(&GRID, triangles, &mut file);
    assert_eq!(length, Ok(file.len()));
    file
}

/// The triangle of a record.
fn triangle(record: stall::Record) -> Triangle {
    Triangle {
        kind: record.kind,
        corners: record.corners.map(|corner| corner.map(i32::from)),
    }
}

#[test]
fn writes_what_is_read() {
    let file = file(&TRIANGLES);
    for (i, written) in TRIANGLES.into_iter().enumerate() {
        let reading = stall::read(&file, i).unwrap();
        let header = reading.header;
        assert_eq!(header.cells.map(|cells| cells as i32), GRID.cells);
        assert_eq!(i32::from(header.edge), GRID.edge);
        assert_eq!(header.origin.map(i32::from), GRID.origin);
        assert_eq!(header.count, 2);
        assert_eq!(reading.record.map(triangle), Some(written));
    }
}

/// Writes a file and fills its map. One type has the refusals of both.
fn write_and_fill(file: &mut [u8], map: &mut [u8]) -> Result<usize, Refusal> {
    let length = desk::write(&GRID, &TRIANGLES, file)?;
    stall::fill(&file[..length], map)
}

#[test]
fn fills_what_is_written() {
    let (mut file, mut map) = ([0; 100], [0; 1]);
    assert_eq!(write_and_fill(&mut file, &mut map), Ok(3));
    assert_eq!(map, [0x70]);
    let route = stall::test_route(&file[..44], &map, &[[0, 0, 0], [9, 9, 0]]);
    assert_eq!(route, Ok(stall::Route::Free));
    let limit = |answer: Result<usize, Refusal>| answer.unwrap_err().limit;
    assert_eq!(
        limit(write_and_fill(&mut file[..43], &mut map)),
        Limit::ShortOutput
    );
    assert_eq!(limit(write_and_fill(&mut file, &mut [])), Limit::ShortMap);
}

/// A cell is filled where there is a bar behind it, and clear where there is none.
#[test]
fn bars_behind_filled_cells() {
    let file = file(&TRIANGLES);
    let mut map = [0];
    assert_eq!(stall::fill(&file, &mut map), Ok(3));
    for cell in 0..8 {
        let bar = desk::bar(&file, cell).unwrap();
        assert_eq!(bar.is_some(), map[0] & 0x80 >> cell != 0);
        if let Some(bar) = bar {
            let record = stall::read(&file, bar.record).unwrap().record;
            assert_eq!(record.map(triangle), Some(TRIANGLES[0]));
        }
    }
    assert_eq!(desk::bar(&file, 8).unwrap_err().limit, Limit::CellOutside);
}

/// What is scanned reads back as the rounded vertices, in the faces' order, and fills the cells of row g.
#[test]
fn reads_what_is_scanned() {
    let header = "ply\nformat binary_little_endian 1.0\nelement vertex 3\nproperty float x\nproperty float y\n\
                  property float z\nelement face 1\nproperty list uchar int vertex_indices\nend_header\n";
    let vertices = [[1.25, 19.5, 5.0f32], [20.5, 20.4, 4.75], [19.6, 0.75, 5.1]];
    let mut ply = header.as_bytes().to_vec();
    ply.extend(vertices.as_flattened().iter().flat_map(|v| v.to_le_bytes()));
    ply.push(3);
    ply.extend([2, 0, 1i32].iter().flat_map(|index| index.to_le_bytes()));
    let (mut file, mut map) = ([0; 28], [0]);
    assert_eq!(desk::scan(&ply, &GRID, &mut file), Ok(28));
    let record = stall::read(&file, 0).unwrap().record;
    let corners = [[20, 1, 5], [1, 20, 5], [20, 20, 5]];
    let kind = Kind::Frame;
    assert_eq!(record.map(triangle), Some(Triangle { kind, corners }));
    assert_eq!(stall::fill(&file, &mut map), Ok(3));
    assert_eq!(map, [0x70]);
}

/// The library writes the example that the documents decode byte by byte.
#[test]
fn writes_the_example() {
    let example = include_bytes!("../../../examples/g.frame");
    assert_eq!(file(&TRIANGLES[..1]), example);
}
