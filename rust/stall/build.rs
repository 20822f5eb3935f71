//! Links libstall.a.

fn main() {
    let archive = link::Archive {
        name: "stall",
        variable: "STALL_LIB",
        folders: &[("x86_64-", "staticlib"), ("thumbv7m-", "firmware")],
    };
    archive.link();
}
