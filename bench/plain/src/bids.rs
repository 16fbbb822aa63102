//! The bids of the load `bids`, each chosen by its number: eighty in each minute of the four-hour sessions' windows, one after the other.

pub struct Bid {
    pub time: u32,
    pub party: u8,
    pub direction: u8,
    pub session: u8,
    pub mw: [u16; 5],
}

/// The last window's first bid. Before it new rights are rare, so that the 512 suffice for the standing ones.
const LAST_WINDOW: u32 = 84_000;

/// A bid that adds to a right of parties 0 to 3. A window has 210 minutes and opens 240 after the one before.
fn usual_bid(i: u32) -> Bid {
    let window = i / 16800 % 6;
    let small = (1 + i % 9) as u16;
    Bid {
        time: 1080 + 240 * window + i / 80 % 210,
        party: (i / 12 % 4) as u8,
        direction: (12 + i % 12) as u8,
        session: (1 + window) as u8,
        mw: [small, 10 - small, small, 10 - small, 0],
    }
}

/// A bid of the other parties. Half of them are for one hour: the one-hour sessions 21 to 24 take bids in all of the six windows.
fn new_right_bid(i: u32) -> Bid {
    let party = (4 + i % 60) as u8;
    if i / 50 % 2 == 0 {
        return Bid {
            party,
            direction: (i / 100 % 12) as u8,
            session: (21 + i / 100 % 4) as u8,
            mw: [1, 0, 0, 0, 0],
            ..usual_bid(i)
        };
    }
    Bid {
        party,
        ..usual_bid(i)
    }
}

pub fn mixed_bid(i: u32) -> Bid {
    let mut bid = usual_bid(i);
    match i % 50 {
        38..=41 if i >= LAST_WINDOW || i % 500 == 40 => return new_right_bid(i),
        42 | 43 => bid.session = 1 + bid.session % 6,
        44 => bid.party = 64,
        45 => bid.direction = 24,
        46 => bid.session = 7,
        47 => bid.mw = [0; 5],
        48 => bid.mw = [1; 5],
        49 => bid.mw = [9999, 9999, 9999, 9999, 0],
        _ => {}
    }
    bid
}
