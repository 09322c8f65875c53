//! The check alone, in five orders of ids.

use ezumokarin as archive;

use crate::measure::{program, Program};
use crate::orders::{ordered, ORDERS};
use crate::timed::{Row, Who, CHECK, SIZES};
use crate::yard::check::{checked, passed};
use crate::yard::Room;

pub fn rows() -> Result<Vec<Row>, String> {
    let mut rows = Vec::new();
    for order in ORDERS {
        for records in SIZES {
            rows.push(row(order, records)?);
        }
    }
    Ok(rows)
}

fn row(order: &'static str, records: usize) -> Result<Row, String> {
    let list = ordered(order, records);
    let mut sizes = Room::new().sizes;
    let counts = [
        archive::check(&list).ok(),
        checked(&list, &mut sizes).map(<[_]>::len),
        passed(&list).map(<[_]>::len),
    ];
    if counts != [Some(records); 3] {
        return Err(format!("check, ids {order}, {records} records: {counts:?}"));
    }
    let programs: Vec<(Who, Program<Vec<u8>>)> = vec![
        (Who::Now, program(|list: &Vec<u8>| archive::check(list))),
        (Who::Best, program(move |list: &Vec<u8>| checked(list, &mut sizes).is_some())),
        (Who::Six, program(|list: &Vec<u8>| passed(list).is_some())),
    ];
    Ok(Row::timed((CHECK, order, records), &[list], programs))
}
