//! Sequences of calls over lent sessions and holdings: three sessions hear two talks, hold, pour, copy, drop and join
//! what they hear, and some octets are spoilt on the way. The next call is made on what the one before left.

use std::collections::VecDeque;

use super::octets::agreed;
use super::spoil::{changes, Changes};
use super::talk::{change, counts, Packet, Talk};
use super::Maker;
use crate::call::{Call, Left};
use crate::paper::host;
use crate::paper::layout::{
    B, FORM, GROUP, GROUP_AT, L, LAST_B, LAST_L, LAST_SEQUENCE, LAST_TIMESTAMP, OCTETS, OPEN, OPEN_SOURCE, POURED,
    SEQUENCE, SESSION_END, SOURCE, TIMESTAMP,
};
use crate::rng::Rng;
use crate::table::number;

/// How many sessions there are; holdings lie behind them.
const SESSIONS: usize = 3;
const HOLDINGS: usize = 4;

/// Lengths of buffers, and of those that are lent cut.
const LENGTHS: [usize; 5] = [OCTETS, OCTETS, OCTETS, OCTETS + 1, 3000];
const SHORT: [usize; 4] = [0, 1, OCTETS - 1, OCTETS - 1];

/// The most octets that a group pours.
const ROOM: usize = 1840;

/// Distances from the base sequence number of a group, beside L.
const DISTANCES: [u16; 12] = [0, 1, 2, 99, 100, 101, 102, 32_766, 32_767, 32_768, 32_769, 65_535];

/// A step: a call on buffers by their places.
#[derive(Clone)]
enum Step {
    Open(usize, u32, [u64; 3]),
    Offer(usize, Packet, bool),
    Pour(usize, usize),
    Copy(usize, usize),
    Drop(usize),
    End(usize),
    Read(usize),
    Join([usize; 3]),
    PourHolding(usize, usize),
    Lost([usize; 2]),
}

/// A sequence: its talks, its buffers, the steps to come, and what is put back after the next call if that answers 21.
pub struct Sequence {
    talks: [Talk; 2],
    shelf: Vec<Vec<u8>>,
    steps: VecDeque<Step>,
    made: Option<(Step, Vec<(usize, usize)>)>,
    spoilt: Option<(usize, Changes)>,
    even: bool,
}

/// The numbers of a group as octets have them.
struct Numbers {
    sequence: u16,
    timestamp: u32,
    l: u16,
    b: u16,
}

impl Numbers {
    /// Those at these places, in this order.
    fn at(octets: &[u8], [sequence, timestamp, l, b]: [usize; 4]) -> Numbers {
        Numbers {
            sequence: u16::from_be_bytes([octets[sequence], octets[sequence + 1]]),
            timestamp: u32::from_be_bytes(octets[timestamp..timestamp + 4].try_into().expect("four octets")),
            l: octets[l].into(),
            b: octets[b].into(),
        }
    }

    /// The timestamp at which the group's frames end.
    fn end(&self) -> u32 {
        self.timestamp.wrapping_add(160 * (u32::from(self.l) + 1) * u32::from(self.b))
    }
}

impl Sequence {
    /// A sequence on buffers of zero or of any octets. In an even one no call is rare.
    pub fn new(rng: &mut Rng, even: bool) -> Sequence {
        let mut talk = || {
            let (form, l, b) = (rng.pick(&[0, 1, 1, 1, 1]), rng.pick(&[0, 1, 2, 3, 5, 7]), rng.pick(&[1, 2, 3, 10]));
            Talk::new(rng, form, l, b)
        };
        let talks = [talk(), talk()];
        let mut buffer = || {
            let mut octets = if rng.one_in(3) { rng.octets(OCTETS) } else { vec![0; OCTETS] };
            let len = rng.pick(&LENGTHS);
            octets.extend(rng.octets(len - OCTETS));
            octets
        };
        let shelf = (0..SESSIONS + HOLDINGS).map(|_| buffer()).collect();
        Sequence { talks, shelf, steps: VecDeque::new(), made: None, spoilt: None, even }
    }

    /// The next call.
    pub fn next(&mut self, maker: &mut Maker) -> Call {
        while self.steps.is_empty() {
            self.plan(maker.rng);
        }
        let step = self.steps.pop_front().expect("a step was planned");
        self.call(step, maker)
    }

    /// Makes the call of a step. Now and then a buffer is lent cut, but not one that was just spoilt; half of the
    /// pourings have just enough room, or an octet less.
    fn call(&mut self, step: Step, maker: &mut Maker) -> Call {
        let mut places = Vec::new();
        let mut lend = |place: usize, rng: &mut Rng| {
            let short = self.spoilt.is_none() && rng.one_in(20);
            let len = if short { rng.pick(&SHORT) } else { self.shelf[place].len() };
            places.push((place, len));
            self.shelf[place][..len].to_vec()
        };
        let rng = &mut *maker.rng;
        let (name, scalars, given) = match &step {
            Step::Open(who, source, [form, l, b]) => {
                ("lv_session_open", vec![u64::from(*source), *form, *l, *b], vec![lend(*who, rng)])
            }
            Step::Offer(who, Packet { source, sequence, timestamp, payload }, _) => {
                let scalars = vec![(*source).into(), (*sequence).into(), (*timestamp).into()];
                ("lv_session_offer", scalars, vec![lend(*who, rng), payload.clone()])
            }
            Step::Pour(who, room) => ("lv_session_pour", vec![], vec![lend(*who, rng), rng.octets(*room)]),
            Step::Copy(who, to) => ("lv_session_copy", vec![], vec![lend(*who, rng), lend(*to, rng)]),
            Step::Drop(who) => ("lv_session_drop", vec![], vec![lend(*who, rng)]),
            Step::End(who) => ("lv_session_end", vec![], vec![lend(*who, rng)]),
            Step::Read(of) => ("lv_holding_read", vec![], vec![lend(*of, rng)]),
            Step::Join(of) => ("lv_holding_join", vec![], of.map(|place| lend(place, rng)).to_vec()),
            Step::PourHolding(of, room) => ("lv_holding_pour", vec![], vec![lend(*of, rng), rng.octets(*room)]),
            Step::Lost(of) => ("lv_holding_lost", vec![], of.map(|place| lend(place, rng)).to_vec()),
        };
        let mut call = maker.call(name, &scalars, given);
        let left = host::make(&call);
        if matches!(step, Step::Pour(..) | Step::PourHolding(..)) && left.answer == 0 && maker.rng.one_in(2) {
            let needed = number(&left.buffers[2]) as usize;
            call.buffers[1].truncate(maker.rng.pick(&[needed, needed, needed - 1]));
        }
        self.made = Some((step, places));
        call
    }

    /// Takes what the call left, and plans what its answer calls for.
    pub fn take(&mut self, left: &Left, rng: &mut Rng) {
        let Some((step, places)) = self.made.take() else { return };
        for (&(place, len), octets) in places.iter().zip(&left.buffers) {
            self.shelf[place][..len].copy_from_slice(octets);
        }
        if let Some((place, old)) = self.spoilt.take() {
            if left.answer == 21 && !rng.one_in(8) {
                old.into_iter().for_each(|(at, octet)| self.shelf[place][at] = octet);
            }
        }
        if let Step::Offer(who, packet, true) = step {
            self.follow(who, packet, left.answer, rng);
        }
    }

    /// After 12 the group is poured, or copied out and dropped, and the packet offered again; a session that takes
    /// nothing of the talk is opened, or the talk goes on.
    fn follow(&mut self, who: usize, packet: Packet, answer: u8, rng: &mut Rng) {
        match answer {
            12 if rng.one_in(3) => self.drop_group(who, packet),
            12 => self.steps.extend([Step::Pour(who, ROOM), Step::Offer(who, packet, false)]),
            10 | 21 => self.open(who),
            13 | 16 | 24 if rng.one_in(3) => self.open(who),
            13 | 16 | 24 => self.talks[who / 2].go_on(rng),
            _ => {}
        }
    }

    /// Plans a few calls that belong together.
    fn plan(&mut self, rng: &mut Rng) {
        let (who, other) = (rng.between(0, SESSIONS - 1), rng.one_in(20));
        let talk = self.talks[if other { 1 - who / 2 } else { who / 2 }].clone();
        let room = rng.pick(&[ROOM, ROOM, ROOM, ROOM + 9, 0, 1, 8]);
        let [a, b, c] = [0; 3].map(|_| SESSIONS + rng.between(0, HOLDINGS - 1));
        let rare = [51, 57, 61, 67, 75, 80, 80, 80, 100, 104, 108];
        match if self.even && rng.one_in(2) { rng.pick(&rare) } else { rng.between(0, 109) } {
            0..=24 => self.offer(who, talk.packet(rng), rng),
            25..=36 => {
                let mut packet = talk.packet(rng);
                change(rng, &mut packet);
                self.offer(who, packet, rng);
            }
            37..=44 => self.offer_aimed(who, rng),
            45..=50 => self.talks[who / 2].go_on(rng),
            51..=56 => self.steps.push_back(Step::Pour(who, room)),
            57..=60 => self.steps.push_back(Step::Copy(who, a)),
            61..=66 => self.steps.push_back(Step::Join([a, b, c])),
            67..=70 => self.steps.push_back(Step::PourHolding(a, room)),
            71..=74 => self.hear_together(who, rng),
            75 | 76 => self.open(who),
            77..=79 => self.steps.push_back(Step::Open(who, talk.source, agreed(rng))),
            80..=82 => self.steps.push_back(Step::End(who)),
            83 => self.talks[who / 2].renew(rng),
            84 => self.talks[who / 2] = Talk::new(rng, 1, 7, 10),
            85..=93 => self.spoil(who, rng),
            94..=99 => self.spoil(a, rng),
            100..=103 => self.steps.push_back(Step::Drop(who)),
            104..=106 => self.steps.push_back(Step::Read(a)),
            107 => self.steps.push_back(Step::Lost([a, b])),
            _ => self.lose_aimed(a, b, rng),
        }
    }

    /// Plans what a host of two boxes does after 12: the group is copied out and dropped, and the packet offered again;
    /// the lost frames between the copy and that of the new group are those that the offer tells.
    fn drop_group(&mut self, who: usize, packet: Packet) {
        let [before, after] = [SESSIONS + who, SESSIONS + (who + 1) % HOLDINGS];
        self.steps.extend([Step::Copy(who, before), Step::Drop(who), Step::Offer(who, packet, false)]);
        self.steps.extend([Step::Copy(who, after), Step::Read(after), Step::Lost([before, after])]);
    }

    /// The lost frames between a holding and one like it, at a distance and a time that the rules turn on; at times of
    /// another source.
    fn lose_aimed(&mut self, before: usize, after: usize, rng: &mut Rng) {
        let mut octets = self.shelf[before][..OCTETS].to_vec();
        if octets.iter().all(|&octet| octet == 0) {
            return self.steps.push_back(Step::Copy(rng.between(0, SESSIONS - 1), before));
        }
        let group = Numbers::at(&octets, [SEQUENCE, TIMESTAMP, L, B]);
        let (base, end) = (group.sequence, group.sequence.wrapping_add(group.l + 1));
        let new = rng.pick(&[base, end, end, end]).wrapping_add(rng.pick(&DISTANCES));
        octets[SEQUENCE..SEQUENCE + 2].copy_from_slice(&new.to_be_bytes());
        octets[TIMESTAMP..TIMESTAMP + 4].copy_from_slice(&group.end().wrapping_add(counts(rng)).to_be_bytes());
        if rng.one_in(8) {
            octets[SOURCE + rng.between(0, 3)] ^= 1 << rng.between(0, 7);
        }
        self.shelf[after][..OCTETS].copy_from_slice(&octets);
        self.steps.push_back(Step::Lost([before, after]));
    }

    /// Plans an offer; most often what its answer calls for follows.
    fn offer(&mut self, who: usize, packet: Packet, rng: &mut Rng) {
        self.steps.push_back(Step::Offer(who, packet, !rng.one_in(4)));
    }

    /// Plans to open a session for its talk.
    fn open(&mut self, who: usize) {
        let Talk { source, form, max_l, max_b, .. } = self.talks[who / 2];
        self.steps.push_back(Step::Open(who, source, [form, max_l, max_b].map(u64::from)));
    }

    /// Offers a packet at a distance and a time that rules of place turn on.
    fn offer_aimed(&mut self, who: usize, rng: &mut Rng) {
        let octets = &self.shelf[who];
        let held = octets[GROUP_AT..SESSION_END].iter().any(|&octet| octet != 0);
        if octets[OPEN] != 1 || !held && octets[POURED] != 1 {
            return self.open(who);
        }
        let group = match held {
            true => Numbers::at(octets, [SEQUENCE, TIMESTAMP, L, B].map(|at| GROUP_AT + at)),
            false => Numbers::at(octets, [LAST_SEQUENCE, LAST_TIMESTAMP, LAST_L, LAST_B]),
        };
        let (any, l) = (rng.pick(&DISTANCES), group.l);
        let distance = rng.pick(&[any, any, any, l, l + 1, l + 2]);
        let next = if held { 0 } else { l + 1 };
        let later = group.end().wrapping_add(counts(rng));
        let source = u32::from_be_bytes(octets[OPEN_SOURCE..OPEN_SOURCE + 4].try_into().expect("four octets"));
        let payload = [if octets[FORM] == 0 { &[][..] } else { &[0, 1] }, &rng.octets(2)].concat();
        let sequence = group.sequence.wrapping_add(next).wrapping_add(distance);
        let timestamp = rng.pick(&[group.timestamp, later, later, later]);
        self.offer(who, Packet { source, sequence, timestamp, payload }, rng);
    }

    /// Two sessions begin anew and hear some packets of a talk, one of them perhaps of a talk that differs a little;
    /// both are copied out, and joined.
    fn hear_together(&mut self, who: usize, rng: &mut Rng) {
        let talk = self.talks[who / 2].clone();
        let (twin, other) = (talk.twin(rng), (who + 1) % SESSIONS);
        for (who, talk) in [(who, talk), (other, twin)] {
            let form = [talk.form, talk.max_l, talk.max_b].map(u64::from);
            self.steps.push_back(Step::Open(who, talk.source, form));
            for _ in 0..rng.between(1, 4) {
                self.steps.push_back(Step::Offer(who, talk.packet(rng), false));
            }
            self.steps.push_back(Step::Copy(who, SESSIONS + who));
        }
        let joined = SESSIONS + rng.between(0, HOLDINGS - 1);
        self.steps.push_back(Step::Join([SESSIONS + who, SESSIONS + other, joined]));
        self.steps.extend([Step::Read(joined), Step::PourHolding(joined, ROOM)]);
    }

    /// Spoils a buffer, if it has anything of the kind, and makes a call that shows it.
    fn spoil(&mut self, place: usize, rng: &mut Rng) {
        let session = place < SESSIONS;
        let octets = &mut self.shelf[place];
        let group = if session { &octets[GROUP_AT..SESSION_END] } else { &octets[..GROUP] };
        if session && octets[OPEN] != 1 {
            return self.open(place);
        }
        if !session && group.iter().all(|&octet| octet == 0) {
            return self.steps.push_back(Step::Copy(rng.between(0, SESSIONS - 1), place));
        }
        let changes = changes(octets, session, rng);
        let old = changes.iter().map(|&(at, _)| (at, octets[at])).collect();
        changes.iter().for_each(|&(at, octet)| octets[at] = octet);
        self.spoilt = Some((place, old));
        let other = SESSIONS + rng.between(0, HOLDINGS - 1);
        let source = u32::from_be_bytes(octets[OPEN_SOURCE..OPEN_SOURCE + 4].try_into().expect("four octets"));
        self.steps.push_front(match (session, rng.between(0, 6)) {
            (true, 0) => Step::Pour(place, ROOM),
            (true, 1) => Step::Copy(place, other),
            (true, 2) => Step::Drop(place),
            (true, _) => Step::Offer(place, Packet { source, ..self.talks[place / 2].packet(rng) }, false),
            (false, 0 | 1) => Step::Join([place, place, other]),
            (false, 2) => Step::Read(place),
            (false, 3) => Step::Lost(rng.pick(&[[place, other], [other, place]])),
            (false, _) => Step::PourHolding(place, ROOM),
        });
    }
}
