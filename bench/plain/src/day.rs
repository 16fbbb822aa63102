//! Hours, sessions and windows of one delivery day. Time is in minutes from 24 hours before the day begins.

use crate::calendar::Date;
use std::ops::Range;

#[derive(Clone, Copy, PartialEq, Eq)]
pub enum Model {
    OneHour,
    FourHour,
}

/// Where a time stands to a window.
#[derive(Clone, Copy, PartialEq, Eq)]
pub enum Timing {
    Early,
    Within,
    Late,
}

impl Timing {
    /// A window holds the minute at which it opens and not the one at which it closes.
    fn of(time: u32, window: Range<u32>) -> Timing {
        if time < window.start {
            Timing::Early
        } else if time < window.end {
            Timing::Within
        } else {
            Timing::Late
        }
    }
}

#[derive(Clone, Copy)]
pub struct Day {
    hours: u8,
    weekday: u8,
}

const TUESDAY: u8 = 2;
const WEDNESDAY: u8 = 3;

impl Day {
    pub const MONDAY: Day = Day {
        hours: 24,
        weekday: 1,
    };

    pub fn of(date: Date) -> Day {
        Day {
            hours: date.hours(),
            weekday: date.weekday(),
        }
    }

    pub fn has_hour(&self, hour: u8) -> bool {
        (1..=self.hours).contains(&hour)
    }

    pub fn has_session(&self, model: Model, session: u8) -> bool {
        let last = match model {
            Model::OneHour => self.hours,
            Model::FourHour => 6,
        };
        (1..=last).contains(&session)
    }

    /// The first hour of a session. In the four-hour model the first session is an hour shorter or longer on the day of a clock change.
    pub fn first_hour(&self, model: Model, session: u8) -> u8 {
        match model {
            Model::OneHour => session,
            Model::FourHour if session == 1 => 1,
            Model::FourHour => 1 + 4 * (session - 1) + self.hours - 24,
        }
    }

    pub fn hours_in(&self, model: Model, session: u8) -> usize {
        match model {
            Model::OneHour => 1,
            Model::FourHour if session == 1 => usize::from(4 + self.hours - 24),
            Model::FourHour => 4,
        }
    }

    fn session_of(&self, model: Model, hour: u8) -> u8 {
        let in_first = 4 + self.hours - 24;
        match model {
            Model::OneHour => hour,
            Model::FourHour if hour <= in_first => 1,
            Model::FourHour => 2 + (hour - in_first - 1) / 4,
        }
    }

    /// The hour that a session's gates go by: on a Tuesday the one-hour sessions after 21 close, and open for matching, as 21 does.
    fn gate_hour(&self, model: Model, session: u8) -> u32 {
        let first = u32::from(self.first_hour(model, session));
        if self.weekday == TUESDAY && model == Model::OneHour {
            first.min(21)
        } else {
            first
        }
    }

    /// When bids and nominations of a session open.
    fn opening(&self, model: Model, session: u8) -> u32 {
        match model {
            Model::OneHour => 1080,
            Model::FourHour => 1020 + 60 * u32::from(self.first_hour(model, session)),
        }
    }

    fn bids_close(&self, model: Model, session: u8) -> u32 {
        1230 + 60 * self.gate_hour(model, session)
    }

    /// A bid in the hold of a Wednesday is early.
    pub fn bid_timing(&self, model: Model, session: u8, time: u32) -> Timing {
        if self.weekday == WEDNESDAY && (1170..1290).contains(&time) {
            return Timing::Early;
        }
        let opening = self.opening(model, session);
        Timing::of(time, opening..self.bids_close(model, session))
    }

    pub fn nomination_timing(&self, model: Model, session: u8, time: u32) -> Timing {
        let close = 1290 + 60 * self.gate_hour(model, session);
        Timing::of(time, self.opening(model, session)..close)
    }

    /// Offers close with the bids of the session that holds the hour.
    pub fn offer_timing(&self, model: Model, hour: u8, time: u32) -> Timing {
        let close = self.bids_close(model, self.session_of(model, hour));
        Timing::of(time, 960..close)
    }

    /// A matching is never late.
    pub fn matching_timing(&self, model: Model, session: u8, time: u32) -> Timing {
        if time < 1335 + 60 * self.gate_hour(model, session) {
            Timing::Early
        } else {
            Timing::Within
        }
    }
}
