#[path = "../copy_tree.rs"]
mod copy_tree;

/// The published files that are compiled as they are.
const PUBLISHED: [&str; 8] = [
    "core/layout.rs",
    "proto/dataplane_path/standard/layout.rs",
    "proto/dataplane_path/standard/mac.rs",
    "proto/dataplane_path/standard/routing.rs",
    "proto/dataplane_path/standard/types.rs",
    "proto/dataplane_path/standard/view.rs",
    "proto/dataplane_path/types.rs",
    "proto/payload/scmp/types.rs",
];

fn main() -> std::io::Result<()> {
    copy_tree::copy_tree("crates/libs/sciparse", &PUBLISHED)
}
