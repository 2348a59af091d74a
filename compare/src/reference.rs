//! dimple's own code, as build.py generated it, with document 01's arithmetic and additions.
#![allow(dead_code, clippy::all)]

pub mod added;
pub mod glam;
pub mod oracle;
pub mod stand;

pub mod units {
    include!(concat!(env!("DIMPLE_GEN"), "/units.rs"));
}
pub mod aero {
    include!(concat!(env!("DIMPLE_GEN"), "/aero.rs"));
}
pub mod rk4 {
    include!(concat!(env!("DIMPLE_GEN"), "/rk4.rs"));
}
pub mod ground {
    include!(concat!(env!("DIMPLE_GEN"), "/ground.rs"));
    /// The private functions of ground.rs over slices; see DOORS.md.
    pub mod leaf {
        include!("leaf.rs");
    }
}
