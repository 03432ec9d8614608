//! The lines of a report, taken apart.

use crate::Refusal;

/// The fields of each line behind the title, or the refusal in its place.
pub(crate) fn fields(report: &str) -> Result<impl Iterator<Item = Vec<&str>>, Refusal> {
    let mut lines = report.lines().map(|line| line.split(';').collect::<Vec<_>>());
    match lines.next().expect("a first line")[..] {
        ["refused", number] => {
            let refusal = number.parse().ok().and_then(Refusal::numbered);
            Err(refusal.expect("a refusal of `include/auction.h`"))
        }
        _ => Ok(lines),
    }
}
