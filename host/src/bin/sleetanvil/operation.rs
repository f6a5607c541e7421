//! The operations of the array, as the program tells of them.

use sleetanvil::{Geometry, Job, Operation};

/// What is done, and where.
pub fn name(operation: &Operation, geometry: &Geometry) -> String {
    let row = operation.row;
    match operation.job {
        Job::Read => format!("read of row {row}"),
        Job::Program => format!("program of row {row}"),
        Job::Erase => format!("erase of block {}", block(row, geometry)),
        Job::Reset => "reset".into(),
    }
}

/// How far an operation has come.
pub fn so_far(operation: &Operation, geometry: &Geometry) -> String {
    let name = name(operation, geometry);
    format!("{name}, {} done", units(operation, geometry))
}

/// Where an operation was stopped.
pub fn cut(operation: &Operation, geometry: &Geometry) -> String {
    let name = name(operation, geometry);
    format!("{name} cut after {}", units(operation, geometry))
}

/// The units done, and the units that it has.
pub fn units(operation: &Operation, geometry: &Geometry) -> String {
    let length = geometry.operation_len(operation.job);
    format!("{} of {length} units", operation.units)
}

/// The block of a row.
pub fn block(row: u16, geometry: &Geometry) -> u32 {
    u32::from(row) / geometry.pages
}
