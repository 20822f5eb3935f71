//! The overlap rule, as it is printed.

type Vector = [i64; 3];

const X: usize = 0;
const Y: usize = 1;
const Z: usize = 2;

fn minus(a: Vector, b: Vector) -> Vector {
    [a[X] - b[X], a[Y] - b[Y], a[Z] - b[Z]]
}

fn cross(a: Vector, b: Vector) -> Vector {
    [
        a[Y] * b[Z] - a[Z] * b[Y],
        a[Z] * b[X] - a[X] * b[Z],
        a[X] * b[Y] - a[Y] * b[X],
    ]
}

fn dot(a: Vector, b: Vector) -> i64 {
    a[X] * b[X] + a[Y] * b[Y] + a[Z] * b[Z]
}

/// Boxes, on one axis: the least corner value is at most p + s and the greatest is at least p.
pub fn box_holds(v: &[Vector; 3], axis: usize, p: i64, s: i64) -> bool {
    let values = v.map(|corner| corner[axis]);
    *values.iter().min().unwrap() <= p + s && *values.iter().max().unwrap() >= p
}

/// Plane: n · (q − v0), with q the cube's corners, has least value ≤ 0 and greatest value ≥ 0.
fn plane_holds(v: &[Vector; 3], p: Vector, s: i64) -> bool {
    let n = cross(minus(v[1], v[0]), minus(v[2], v[0]));
    let values = (0..8).map(|corner| {
        let q = [
            p[X] + s * (corner & 1),
            p[Y] + s * (corner >> 1 & 1),
            p[Z] + s * (corner >> 2),
        ];
        dot(n, minus(q, v[0]))
    });
    values.clone().min().unwrap() <= 0 && values.max().unwrap() >= 0
}

/// Edges, in the plane of two axes, with the normal's component on the third.
fn edges_hold(
    v: &[Vector; 3],
    p: Vector,
    s: i64,
    first: usize,
    second: usize,
    third: usize,
) -> bool {
    let n = cross(minus(v[1], v[0]), minus(v[2], v[0]));
    (0..3).all(|start| {
        let e = minus(v[(start + 1) % 3], v[start]);
        let mut m = [-e[second], e[first]];
        if n[third] < 0 {
            m = [-m[0], -m[1]];
        }
        let at_p = m[0] * p[first] + m[1] * p[second];
        let at_v = m[0] * v[start][first] + m[1] * v[start][second];
        at_p - at_v + (s * m[0]).max(0) + (s * m[1]).max(0) >= 0
    })
}

/// Is the cell with lowest corner p and edge s filled by the triangle v?
pub fn overlaps(v: &[Vector; 3], p: Vector, s: i64) -> bool {
    (X..=Z).all(|axis| box_holds(v, axis, p[axis], s))
        && plane_holds(v, p, s)
        && edges_hold(v, p, s, X, Y, Z)
        && edges_hold(v, p, s, Y, Z, X)
        && edges_hold(v, p, s, Z, X, Y)
}
