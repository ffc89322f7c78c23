//! What the plain programs of this folder share: types and their runs, designs, the listing of designs, and histories. std only,
//! as a user would write it.
#![allow(dead_code)] // each program uses a part

pub mod designs;
pub mod histories;
pub mod listing;
pub mod states;
pub mod types;
