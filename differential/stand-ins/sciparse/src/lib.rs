// Stands for sciparse/src/lib.rs and the files that only declare modules.
// Assumes that `proto` and `scion` are folders whose modules are re-exported at the root, as the published `use`s say.

pub mod core {
    pub mod debug;
    pub mod layout;
    pub mod read;
    pub mod view;
    pub mod write;
}

pub mod proto {
    pub mod dataplane_path {
        pub mod standard {
            pub mod layout;
            pub mod mac;
            pub mod routing;
            pub mod types;
            pub mod view;
        }
        pub mod types;
        pub mod view;
    }
    pub mod packet {
        pub mod view;
    }
    pub mod payload {
        pub mod scmp {
            pub mod model;
            pub mod types;
        }
    }
}

pub mod scion {
    pub mod identifier {
        pub mod isd_asn;
    }
}

pub use proto::*;
pub use scion::*;
