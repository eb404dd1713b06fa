#[path = "../copy_tree.rs"]
mod copy_tree;

/// The published files that are compiled as they are.
const PUBLISHED: [&str; 3] = [
    "network/scion/routing.rs",
    "network/scion/routing/spec.rs",
    "network/scion/routing/spec/standard.rs",
];

fn main() -> std::io::Result<()> {
    copy_tree::copy_tree("crates/pocketscion", &PUBLISHED)
}
