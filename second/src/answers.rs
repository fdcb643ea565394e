//! "Numbers that come back": how one number is chosen among the table's rows.

/// "0 stored, done or written".
pub const STORED: u8 = 0;
/// "1 delivered".
pub const DELIVERED: u8 = 1;
/// "17 | number check says repeat". By 02 its age comes with it.
pub const REPEAT: u8 = 17;

/// One row of the table: its number, and whether it is "given" here.
pub type Row = (u8, bool);

/// "The lowest number that applies is given." The rows stand in the order in
/// which they are tried; the first that holds is the refusal.
pub fn first_that_applies(rows: &[Row]) -> Option<u8> {
    rows.iter()
        .find(|(_, applies)| *applies)
        .map(|(number, _)| *number)
}

#[cfg(test)]
mod tests {
    use super::*;

    #[test]
    fn the_first_row_that_holds_is_given() {
        assert_eq!(first_that_applies(&[]), None);
        assert_eq!(first_that_applies(&[(9, false), (12, false)]), None);
        assert_eq!(
            first_that_applies(&[(9, false), (12, true), (13, true)]),
            Some(12)
        );
        assert_eq!(
            first_that_applies(&[(9, true), (12, true), (13, false)]),
            Some(9)
        );
    }
}
