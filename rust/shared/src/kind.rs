//! The kinds of triangles.

/// What a triangle belongs to. All kinds fill cells alike: a gate is an obstacle, open or shut.
#[derive(Clone, Copy, Debug, PartialEq, Eq, Hash)]
#[repr(i32)]
pub enum Kind {
    /// 0: the frame.
    Frame = 0,
    /// 1: the entry gate.
    EntryGate = 1,
    /// 2: the exit gate.
    ExitGate = 2,
}
