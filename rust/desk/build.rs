//! Links libdesk.a.

fn main() {
    let archive = link::Archive {
        name: "desk",
        variable: "DESK_LIB",
        folders: &[("x86_64-", "staticlib")],
    };
    archive.link();
}
