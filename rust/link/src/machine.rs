//! The machine that an archive's objects are for, by ELF's number.

/// The machines by ELF's number, with the names that Rust and readers know them by.
const MACHINES: [(u16, &str, &str); 5] = [
    (62, "x86_64", "x86-64"),
    (40, "arm", "Arm"),
    (3, "x86", "32-bit x86"),
    (183, "aarch64", "64-bit Arm"),
    (243, "riscv32", "RISC-V"),
];

/// The machine that Rust builds for, where it is known here.
pub fn wanted(arch: &str) -> Option<u16> {
    MACHINES
        .iter()
        .find(|machine| machine.1 == arch)
        .map(|machine| machine.0)
}

/// A machine's name, or its number.
pub fn name(machine: u16) -> String {
    match MACHINES.iter().find(|known| known.0 == machine) {
        Some(known) => known.2.to_string(),
        None => format!("ELF machine {machine}"),
    }
}

/// The machine of an archive's first object. In front of it may stand the list of symbols and the list of long names.
pub fn of(archive: &[u8]) -> Option<u16> {
    let mut rest = archive.strip_prefix(b"!<arch>\n")?;
    loop {
        let (head, behind) = (rest.get(..60)?, &rest[60..]);
        let lists: [&[u8]; 3] = [b"/ ", b"// ", b"/SYM64/ "];
        if !lists.iter().any(|list| head.starts_with(list)) {
            return of_object(behind);
        }
        let size = std::str::from_utf8(&head[48..58]).ok()?;
        let size: usize = size.trim_end().parse().ok()?;
        // members begin at even places
        rest = behind.get(size + size % 2..)?;
    }
}

/// The machine of an object: two bytes at place 18, in the order that the byte at place 5 says.
fn of_object(object: &[u8]) -> Option<u16> {
    let head = object
        .get(..20)
        .filter(|head| head.starts_with(b"\x7fELF"))?;
    let bytes = [head[18], head[19]];
    Some(match head[5] {
        1 => u16::from_le_bytes(bytes),
        _ => u16::from_be_bytes(bytes),
    })
}
