//! Schedules by hand in plain Rust, as `proud --schedule` reads them.

use crate::readers::{Fault, Kind, each_line, whole_of};

/// A load or a renewal by a seat at a point. Neither need be there.
#[derive(Clone, Copy)]
pub struct Event {
    pub renews: bool,
    pub seat: u32,
    pub point: u32,
}

/// The events of a schedule, or its first line that is none.
pub fn read_schedule(text: &[u8]) -> Result<Vec<Event>, Fault> {
    let mut events = Vec::new();
    each_line(text, |_, words| {
        events.push(event_of(words)?);
        Ok(())
    })?;
    Ok(events)
}

fn event_of(words: &[&[u8]]) -> Result<Event, Kind> {
    let [keyword, seat, point] = words else {
        return Err(Kind::BadLine);
    };
    let renews = keyword.eq_ignore_ascii_case(b"renew");
    if !renews && !keyword.eq_ignore_ascii_case(b"load") {
        return Err(Kind::BadLine);
    }
    Ok(Event {
        renews,
        seat: number_of(seat)?,
        point: number_of(point)?,
    })
}

/// The number of a whole word that fits.
fn number_of(word: &[u8]) -> Result<u32, Kind> {
    let number = whole_of(word).map_err(|_| Kind::BadLine)?;
    u32::try_from(number).map_err(|_| Kind::BadLine)
}
