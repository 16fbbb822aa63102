//! The book of one delivery day: set-up, offers, bids, rights, nominations, matchings and the reads.
//! A call looks for the first refusal in their order that applies, and changes nothing before it is sure that none does.

use crate::answer::{Answer, CapacityOf};
use crate::calendar::Date;
use crate::code::{is_party_code, Code};
use crate::day::{Day, Model, Timing};

const LATEST: u32 = 2999;
const HIGHEST_MW: u16 = 9999;
const OPERATORS: u8 = 7;

const MOST_DIRECTIONS: usize = 24;
const MOST_PROFILES: usize = 8;
const MOST_PARTIES: usize = 64;
const MOST_RIGHTS: usize = 512;
const MOST_PAIRS: usize = 512;
const MOST_HOURS: usize = 25;

/// The MW of a direction or a profile in one hour.
#[derive(Clone, Copy, Default)]
struct Capacity {
    offered: u32,
    granted: u32,
}

impl Capacity {
    /// 0 where the granted MW exceed the offer.
    fn left(&self) -> u32 {
        self.offered.saturating_sub(self.granted)
    }

    /// By how much the granted MW exceed the offer.
    fn shortfall(&self) -> u32 {
        self.granted.saturating_sub(self.offered)
    }

    fn read(&self) -> Left {
        Left {
            left: self.left(),
            shortfall: self.shortfall(),
        }
    }
}

/// What a read of a direction or a profile in an hour answers.
pub struct Left {
    pub left: u32,
    pub shortfall: u32,
}

#[derive(Clone, Copy)]
struct Direction {
    out: u8,
    into: u8,
    model: Model,
    /// By hour, the first at 0.
    capacity: [Capacity; MOST_HOURS],
    /// By session, the first at 0.
    matched: [bool; MOST_HOURS],
}

#[derive(Clone, Copy)]
struct Profile {
    map: u32,
    capacity: [Capacity; MOST_HOURS],
}

impl Profile {
    fn holds(&self, direction: u8) -> bool {
        self.map >> direction & 1 == 1
    }
}

#[derive(Clone, Copy)]
struct Party {
    code: Code,
    access: u8,
}

impl Party {
    fn has_access(&self, operator: u8) -> bool {
        self.access >> operator & 1 == 1
    }
}

#[derive(Clone, Copy)]
pub struct Right {
    pub holder: u8,
    pub direction: u8,
    pub session: u8,
    pub mw: [u32; 5],
}

#[derive(Clone, Copy)]
struct Pair {
    right: u16,
    out: u8,
    into: u8,
    /// The MW of the out side and of the in side; 0 where never sent.
    sides: [[u16; 5]; 2],
}

impl Pair {
    /// The lower of the two sides in an hour of the session.
    fn lower(&self, hour: usize) -> u32 {
        u32::from(self.sides[0][hour].min(self.sides[1][hour]))
    }
}

#[derive(Clone)]
pub struct Book {
    day: Day,
    /// The time of the latest granted timed call.
    clock: Option<u32>,
    directions: Vec<Direction>,
    profiles: Vec<Profile>,
    parties: Vec<Party>,
    rights: Vec<Right>,
    pairs: Vec<Pair>,
}

/// The index of an hour or a session in a table: both are numbered from 1.
fn at(number: u8) -> usize {
    usize::from(number) - 1
}

fn any_too_high(mw: &[u16]) -> bool {
    mw.iter().any(|&m| m > HIGHEST_MW)
}

fn any_above_zero(mw: &[u16]) -> bool {
    mw.iter().any(|&m| m > 0)
}

/// The refusal of a call outside its window.
fn refusal_at(timing: Timing) -> Option<Answer> {
    match timing {
        Timing::Early => Some(Answer::TooEarly),
        Timing::Within => None,
        Timing::Late => Some(Answer::TooLate),
    }
}

// Opening and set-up.
impl Book {
    /// A refused opening gives an empty book of a 24-hour Monday.
    pub fn open(year: u16, month: u8, day: u8) -> (Book, Answer) {
        match Date::new(year, month, day) {
            Some(date) => (Book::empty(Day::of(date)), Answer::Granted(0)),
            None => (Book::empty(Day::MONDAY), Answer::Date),
        }
    }

    fn empty(day: Day) -> Book {
        Book {
            day,
            clock: None,
            directions: Vec::with_capacity(MOST_DIRECTIONS),
            profiles: Vec::with_capacity(MOST_PROFILES),
            parties: Vec::with_capacity(MOST_PARTIES),
            rights: Vec::with_capacity(MOST_RIGHTS),
            pairs: Vec::with_capacity(MOST_PAIRS),
        }
    }

    /// As the other book is, in the room that this one has.
    pub fn put_back(&mut self, filled: &Book) {
        self.day = filled.day;
        self.clock = filled.clock;
        self.directions.clone_from(&filled.directions);
        self.profiles.clone_from(&filled.profiles);
        self.parties.clone_from(&filled.parties);
        self.rights.clone_from(&filled.rights);
        self.pairs.clone_from(&filled.pairs);
    }

    fn is_shut(&self) -> bool {
        self.clock.is_some()
    }

    fn before_clock(&self, time: u32) -> bool {
        self.clock.is_some_and(|clock| time < clock)
    }

    pub fn add_direction(&mut self, out: u8, into: u8, model: u8) -> Answer {
        let known_model = match model {
            1 => Some(Model::OneHour),
            4 => Some(Model::FourHour),
            _ => None,
        };
        let Some(model) = known_model else {
            return Answer::Field;
        };
        if out >= OPERATORS || into >= OPERATORS || out == into {
            return Answer::Field;
        }
        if self.is_shut() {
            return Answer::SetupShut;
        }
        // A border has one model, so the opposite direction may not have another.
        let clashes = |d: &Direction| {
            (d.out, d.into) == (out, into) || (d.out, d.into) == (into, out) && d.model != model
        };
        if self.directions.iter().any(clashes) {
            return Answer::Taken;
        }
        if self.directions.len() == MOST_DIRECTIONS {
            return Answer::Full;
        }
        self.directions.push(Direction {
            out,
            into,
            model,
            capacity: [Capacity::default(); MOST_HOURS],
            matched: [false; MOST_HOURS],
        });
        Answer::Granted(self.directions.len() as u32 - 1)
    }

    pub fn add_profile(&mut self, map: u32) -> Answer {
        if map.count_ones() < 2 {
            return Answer::Field;
        }
        if self.is_shut() {
            return Answer::SetupShut;
        }
        if map >> self.directions.len() != 0 {
            return Answer::Unknown;
        }
        if self.profiles.len() == MOST_PROFILES {
            return Answer::Full;
        }
        self.profiles.push(Profile {
            map,
            capacity: [Capacity::default(); MOST_HOURS],
        });
        Answer::Granted(self.profiles.len() as u32 - 1)
    }

    pub fn add_party(&mut self, code: Code, access: u8) -> Answer {
        if access == 0 || access >> OPERATORS != 0 || !is_party_code(&code) {
            return Answer::Field;
        }
        if self.is_shut() {
            return Answer::SetupShut;
        }
        if self.parties.iter().any(|party| party.code == code) {
            return Answer::Taken;
        }
        if self.parties.len() == MOST_PARTIES {
            return Answer::Full;
        }
        self.parties.push(Party { code, access });
        Answer::Granted(self.parties.len() as u32 - 1)
    }
}

// Offers and bids.
impl Book {
    pub fn offer_direction(&mut self, time: u32, direction: u8, hour: u8, mw: u16) -> Answer {
        if time > LATEST || mw > HIGHEST_MW {
            return Answer::Field;
        }
        if self.before_clock(time) {
            return Answer::Clock;
        }
        let Some(offered) = self.directions.get_mut(usize::from(direction)) else {
            return Answer::Unknown;
        };
        if !self.day.has_hour(hour) {
            return Answer::Unknown;
        }
        let timing = self.day.offer_timing(offered.model, hour, time);
        if let Some(refusal) = refusal_at(timing) {
            return refusal;
        }
        let capacity = &mut offered.capacity[at(hour)];
        capacity.offered = u32::from(mw);
        self.clock = Some(time);
        Answer::Granted(capacity.left())
    }

    /// The hour of a profile counts as a one-hour session.
    pub fn offer_profile(&mut self, time: u32, profile: u8, hour: u8, mw: u16) -> Answer {
        if time > LATEST || mw > HIGHEST_MW {
            return Answer::Field;
        }
        if self.before_clock(time) {
            return Answer::Clock;
        }
        let Some(offered) = self.profiles.get_mut(usize::from(profile)) else {
            return Answer::Unknown;
        };
        if !self.day.has_hour(hour) {
            return Answer::Unknown;
        }
        let timing = self.day.offer_timing(Model::OneHour, hour, time);
        if let Some(refusal) = refusal_at(timing) {
            return refusal;
        }
        let capacity = &mut offered.capacity[at(hour)];
        capacity.offered = u32::from(mw);
        self.clock = Some(time);
        Answer::Granted(capacity.left())
    }

    /// The right that a four-hour bid adds to. A one-hour bid always makes a new one.
    fn standing_right(&self, holder: u8, direction: u8, session: u8) -> Option<usize> {
        self.rights
            .iter()
            .position(|r| r.holder == holder && r.direction == direction && r.session == session)
    }

    /// The first hour that is short; in it the direction before the profiles, the lowest profile first.
    /// The search ends after the last hour with MW: 0 MW are never short.
    fn shortage(&self, direction: u8, first: u8, mw: &[u16]) -> Option<(u8, CapacityOf)> {
        let own = &self.directions[usize::from(direction)].capacity;
        let last = mw.iter().rposition(|&m| m > 0)?;
        for (hour, &asked) in (first..).zip(&mw[..=last]) {
            let asked = u32::from(asked);
            if own[at(hour)].left() < asked {
                return Some((hour, CapacityOf::Direction));
            }
            for (number, profile) in (0..).zip(&self.profiles) {
                if profile.holds(direction) && profile.capacity[at(hour)].left() < asked {
                    return Some((hour, CapacityOf::Profile(number)));
                }
            }
        }
        None
    }

    /// The MW of each hour, on the direction and on each profile that holds it.
    fn grant(&mut self, direction: u8, first: u8, mw: &[u16]) {
        let own = &mut self.directions[usize::from(direction)].capacity;
        for (hour, &asked) in (first..).zip(mw) {
            own[at(hour)].granted += u32::from(asked);
        }
        for profile in self.profiles.iter_mut().filter(|p| p.holds(direction)) {
            for (hour, &asked) in (first..).zip(mw) {
                profile.capacity[at(hour)].granted += u32::from(asked);
            }
        }
    }

    /// The refusals of a bid from 3 to 10 in their order, or the model of its direction.
    fn check_bid(
        &self,
        time: u32,
        party: u8,
        direction: u8,
        session: u8,
        mw: &[u16; 5],
    ) -> Result<Model, Answer> {
        if time > LATEST || any_too_high(mw) {
            return Err(Answer::Field);
        }
        if self.before_clock(time) {
            return Err(Answer::Clock);
        }
        let bidder = self.parties.get(usize::from(party));
        let asked = self.directions.get(usize::from(direction));
        let (Some(bidder), Some(asked)) = (bidder, asked) else {
            return Err(Answer::Unknown);
        };
        if !self.day.has_session(asked.model, session) {
            return Err(Answer::Unknown);
        }
        let timing = self.day.bid_timing(asked.model, session, time);
        if let Some(refusal) = refusal_at(timing) {
            return Err(refusal);
        }
        let past_session = &mw[self.day.hours_in(asked.model, session)..];
        if any_above_zero(past_session) || !any_above_zero(mw) {
            return Err(Answer::Hours);
        }
        if !bidder.has_access(asked.out) && !bidder.has_access(asked.into) {
            return Err(Answer::Access);
        }
        Ok(asked.model)
    }

    /// Five MW, one for each hour of the session: granted with every hour or with none.
    pub fn bid(
        &mut self,
        time: u32,
        party: u8,
        direction: u8,
        session: u8,
        mw: [u16; 5],
    ) -> Answer {
        let model = match self.check_bid(time, party, direction, session, &mw) {
            Ok(model) => model,
            Err(refusal) => return refusal,
        };
        let standing = match model {
            Model::OneHour => None,
            Model::FourHour => self.standing_right(party, direction, session),
        };
        if standing.is_none() && self.rights.len() == MOST_RIGHTS {
            return Answer::Full;
        }
        let first = self.day.first_hour(model, session);
        let in_session = &mw[..self.day.hours_in(model, session)];
        if let Some((hour, capacity)) = self.shortage(direction, first, in_session) {
            return Answer::Short(hour, capacity);
        }
        self.grant(direction, first, in_session);
        self.clock = Some(time);
        let number = standing.unwrap_or_else(|| self.new_right(party, direction, session));
        for (held, more) in self.rights[number].mw.iter_mut().zip(mw) {
            *held += u32::from(more);
        }
        Answer::Granted(number as u32)
    }

    /// A right without MW yet: its number.
    fn new_right(&mut self, holder: u8, direction: u8, session: u8) -> usize {
        self.rights.push(Right {
            holder,
            direction,
            session,
            mw: [0; 5],
        });
        self.rights.len() - 1
    }
}

// Nominations and matching.
impl Book {
    fn pair_at(&self, right: u16, out: u8, into: u8) -> Option<usize> {
        self.pairs
            .iter()
            .position(|p| p.right == right && p.out == out && p.into == into)
    }

    /// Bit 0 for the first hour: where the side's total under the right is above the right.
    fn marks(&self, right: u16, side: usize) -> u32 {
        let mut totals = [0u32; 5];
        for pair in self.pairs.iter().filter(|p| p.right == right) {
            for (total, mw) in totals.iter_mut().zip(pair.sides[side]) {
                *total += u32::from(mw);
            }
        }
        let held = &self.rights[usize::from(right)].mw;
        (0..5).fold(0, |marks, k| marks | u32::from(totals[k] > held[k]) << k)
    }

    /// The refusals of a nomination from 3 to 11 in their order.
    fn check_nomination(
        &self,
        time: u32,
        sender: u8,
        other: u8,
        right: u16,
        side: u8,
        mw: &[u16; 5],
    ) -> Result<(), Answer> {
        if time > LATEST || side > 1 || any_too_high(mw) {
            return Err(Answer::Field);
        }
        if self.before_clock(time) {
            return Err(Answer::Clock);
        }
        let party = self.parties.get(usize::from(sender));
        let nominated = self.rights.get(usize::from(right));
        let (Some(party), Some(nominated)) = (party, nominated) else {
            return Err(Answer::Unknown);
        };
        if usize::from(other) >= self.parties.len() {
            return Err(Answer::Unknown);
        }
        let direction = &self.directions[usize::from(nominated.direction)];
        let (model, session) = (direction.model, nominated.session);
        let timing = self.day.nomination_timing(model, session, time);
        if let Some(refusal) = refusal_at(timing) {
            return Err(refusal);
        }
        if any_above_zero(&mw[self.day.hours_in(model, session)..]) {
            return Err(Answer::Hours);
        }
        let operator = if side == 0 {
            direction.out
        } else {
            direction.into
        };
        if !party.has_access(operator) {
            return Err(Answer::Access);
        }
        if nominated.holder != sender && nominated.holder != other {
            return Err(Answer::Owner);
        }
        Ok(())
    }

    /// The sender is the out party on side 0 and the in party on side 1.
    pub fn nominate(
        &mut self,
        time: u32,
        sender: u8,
        other: u8,
        right: u16,
        side: u8,
        mw: [u16; 5],
    ) -> Answer {
        if let Err(refusal) = self.check_nomination(time, sender, other, right, side, &mw) {
            return refusal;
        }
        let (out, into) = if side == 0 {
            (sender, other)
        } else {
            (other, sender)
        };
        let standing = self.pair_at(right, out, into);
        if standing.is_none() && self.pairs.len() == MOST_PAIRS {
            return Answer::Full;
        }
        let number = standing.unwrap_or_else(|| self.new_pair(right, out, into));
        let side = usize::from(side);
        self.pairs[number].sides[side] = mw;
        self.clock = Some(time);
        Answer::Granted(self.marks(right, side))
    }

    /// A pair of which neither side was sent: its number.
    fn new_pair(&mut self, right: u16, out: u8, into: u8) -> usize {
        self.pairs.push(Pair {
            right,
            out,
            into,
            sides: [[0; 5]; 2],
        });
        self.pairs.len() - 1
    }

    /// A direction's session, once: the count of its rights, nominated or not.
    pub fn match_session(&mut self, time: u32, direction: u8, session: u8) -> Answer {
        if time > LATEST {
            return Answer::Field;
        }
        if self.before_clock(time) {
            return Answer::Clock;
        }
        let Some(matched) = self.directions.get_mut(usize::from(direction)) else {
            return Answer::Unknown;
        };
        if !self.day.has_session(matched.model, session) {
            return Answer::Unknown;
        }
        let timing = self.day.matching_timing(matched.model, session, time);
        if let Some(refusal) = refusal_at(timing) {
            return refusal;
        }
        if matched.matched[at(session)] {
            return Answer::Cycle;
        }
        matched.matched[at(session)] = true;
        self.clock = Some(time);
        let of_session = |r: &&Right| r.direction == direction && r.session == session;
        Answer::Granted(self.rights.iter().filter(of_session).count() as u32)
    }
}

// Reads.
impl Book {
    pub fn left_of_direction(&self, direction: u8, hour: u8) -> Result<Left, Answer> {
        match self.directions.get(usize::from(direction)) {
            Some(asked) if self.day.has_hour(hour) => Ok(asked.capacity[at(hour)].read()),
            _ => Err(Answer::Unknown),
        }
    }

    pub fn left_of_profile(&self, profile: u8, hour: u8) -> Result<Left, Answer> {
        match self.profiles.get(usize::from(profile)) {
            Some(asked) if self.day.has_hour(hour) => Ok(asked.capacity[at(hour)].read()),
            _ => Err(Answer::Unknown),
        }
    }

    pub fn right_at(&self, right: u16) -> Result<Right, Answer> {
        let there = self.rights.get(usize::from(right)).copied();
        there.ok_or(Answer::Unknown)
    }

    /// The sum of the lower sides of a right's pairs, by hour of the session.
    fn lower_totals(&self, right: u16) -> [u32; 5] {
        let mut totals = [0; 5];
        for pair in self.pairs.iter().filter(|p| p.right == right) {
            for (hour, total) in totals.iter_mut().enumerate() {
                *total += pair.lower(hour);
            }
        }
        totals
    }

    /// Where the lower sides of the right's pairs sum up to more than the right, each is cut pro rata, rounded down.
    pub fn confirmed_of(&self, right: u16, out: u8, into: u8) -> Result<[u32; 5], Answer> {
        let Some(number) = self.pair_at(right, out, into) else {
            return Err(Answer::Unknown);
        };
        let held = &self.rights[usize::from(right)];
        if !self.directions[usize::from(held.direction)].matched[at(held.session)] {
            return Err(Answer::Cycle);
        }
        let totals = self.lower_totals(right);
        let mut confirmed = [0; 5];
        for (hour, mw) in confirmed.iter_mut().enumerate() {
            let lower = self.pairs[number].lower(hour);
            *mw = if totals[hour] > held.mw[hour] {
                // At most 9,999 each, so the product fits.
                lower * held.mw[hour] / totals[hour]
            } else {
                lower
            };
        }
        Ok(confirmed)
    }
}
