//! Functional units. A job's outcome is worked out when it is taken; a unit says when it comes.

use crate::word::Outcome;

#[derive(Clone, Copy, Default)]
pub struct Offer {
    pub tag: u8,
    pub outcome: Outcome,
}

pub trait Unit {
    /// the classes served, a bit each
    const SERVES: u8;
    /// the longest stay
    const STAY: u64;
    fn new() -> Self;
    /// the classes that can be taken now, a bit each
    fn rooms(&self) -> u8;
    /// the caller has seen that there is room
    fn take(&mut self, class: u8, job: Offer);
    fn offers(&self) -> bool;
    fn offer(&self) -> Option<Offer>;
    fn step(&mut self, accepted: bool);
    fn clear(&mut self);
}

/// A queue of up to `ROOM` jobs; the oldest is offered once `LATENCY` steps have passed since it was taken.
pub struct Queue<const CLASSES: u8, const LATENCY: u64, const ROOM: usize> {
    jobs: [Offer; ROOM],
    /// when each may be offered, by `now`: no job has to be touched in a step
    ripe: [u64; ROOM],
    now: u64,
    first: usize,
    count: usize,
}

pub type Plain = Queue<0b1001, 0, 2>;
pub type Multiplier = Queue<0b0010, 3, 4>;

impl<const CLASSES: u8, const LATENCY: u64, const ROOM: usize> Unit for Queue<CLASSES, LATENCY, ROOM> {
    const SERVES: u8 = CLASSES;
    const STAY: u64 = LATENCY + ROOM as u64;

    fn new() -> Self {
        Queue { jobs: [Offer::default(); ROOM], ripe: [0; ROOM], now: 0, first: 0, count: 0 }
    }

    #[inline(always)]
    fn rooms(&self) -> u8 {
        if self.count < ROOM {
            CLASSES
        } else {
            0
        }
    }

    #[inline(always)]
    fn take(&mut self, _class: u8, job: Offer) {
        let place = (self.first + self.count) % ROOM;
        self.jobs[place] = job;
        self.ripe[place] = self.now + LATENCY;
        self.count += 1;
    }

    #[inline(always)]
    fn offers(&self) -> bool {
        self.count > 0 && self.ripe[self.first % ROOM] <= self.now
    }

    #[inline(always)]
    fn offer(&self) -> Option<Offer> {
        if self.offers() {
            Some(self.jobs[self.first % ROOM])
        } else {
            None
        }
    }

    #[inline(always)]
    fn step(&mut self, accepted: bool) {
        if accepted && self.offers() {
            self.first = (self.first + 1) % ROOM;
            self.count -= 1;
        }
        self.now += 1;
    }

    #[inline(always)]
    fn clear(&mut self) {
        self.count = 0;
    }
}

/// One job, offered once 32 steps have passed.
pub struct Divider {
    job: Offer,
    busy: bool,
    left: u8,
}

impl Unit for Divider {
    const SERVES: u8 = 0b0100;
    const STAY: u64 = 33;

    fn new() -> Self {
        Divider { job: Offer::default(), busy: false, left: 0 }
    }

    #[inline(always)]
    fn rooms(&self) -> u8 {
        if self.busy {
            0
        } else {
            Self::SERVES
        }
    }

    #[inline(always)]
    fn take(&mut self, _class: u8, job: Offer) {
        self.job = job;
        self.busy = true;
        self.left = 32;
    }

    #[inline(always)]
    fn offers(&self) -> bool {
        self.busy && self.left == 0
    }

    #[inline(always)]
    fn offer(&self) -> Option<Offer> {
        if self.offers() {
            Some(self.job)
        } else {
            None
        }
    }

    #[inline(always)]
    fn step(&mut self, accepted: bool) {
        if self.left > 0 {
            self.left -= 1;
        } else if accepted {
            self.busy = false;
        }
    }

    #[inline(always)]
    fn clear(&mut self) {
        self.busy = false;
        self.left = 0;
    }
}

/// Two units over one bus, taking turns where both offer.
pub struct Join<L, R> {
    left: L,
    right: R,
    rights_turn: bool,
}

impl<L: Unit, R: Unit> Unit for Join<L, R> {
    const SERVES: u8 = L::SERVES | R::SERVES;
    const STAY: u64 = 2 * if L::STAY > R::STAY { L::STAY } else { R::STAY };

    fn new() -> Self {
        Join { left: L::new(), right: R::new(), rights_turn: false }
    }

    #[inline(always)]
    fn rooms(&self) -> u8 {
        self.left.rooms() | self.right.rooms()
    }

    #[inline(always)]
    fn take(&mut self, class: u8, job: Offer) {
        if self.left.rooms() >> class & 1 == 1 {
            self.left.take(class, job)
        } else {
            self.right.take(class, job)
        }
    }

    #[inline(always)]
    fn offers(&self) -> bool {
        self.left.offers() || self.right.offers()
    }

    #[inline(always)]
    fn offer(&self) -> Option<Offer> {
        if self.left.offers() && !(self.rights_turn && self.right.offers()) {
            self.left.offer()
        } else {
            self.right.offer()
        }
    }

    #[inline(always)]
    fn step(&mut self, accepted: bool) {
        if accepted && self.left.offers() && self.right.offers() {
            self.left.step(!self.rights_turn);
            self.right.step(self.rights_turn);
            self.rights_turn = !self.rights_turn;
        } else {
            self.left.step(accepted);
            self.right.step(accepted);
        }
    }

    #[inline(always)]
    fn clear(&mut self) {
        self.left.clear();
        self.right.clear();
        self.rights_turn = false;
    }
}

pub type All = Join<Join<Plain, Multiplier>, Divider>;
pub type Deep = Join<Join<Plain, Plain>, Join<Multiplier, Divider>>;
