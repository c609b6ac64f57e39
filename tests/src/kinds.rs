//! What a lawful record with penalty cards shows, by kind, found by playing it over.
use crate::making::Made;
use crate::penalty::{Code, Faced, Turn, FORBID, MOST_CODES, REQUIRE, TEN};
use crate::play::{rank, suit, Play};
use std::collections::BTreeMap;

/// The kinds. Each has to occur.
pub const KINDS: [&str; 66] = [
    "code: before the opening lead",
    "code: before a lead",
    "code: in the middle of a trick",
    "code: in a trick that a claim leaves unfinished",
    "code: on trick 13",
    "codes: 40",
    "exposed: minor",
    "exposed: honour alone, by accident",
    "exposed: low card alone, deliberately",
    "exposed: second card makes a minor one major",
    "exposed: third card or later",
    "exposed: again after it was picked up, minor",
    "exposed: again after it was picked up, major",
    "exposed: minor, where this defender had two before",
    "exposed: minor, beside a card of the other defender",
    "chosen: requirement",
    "chosen: ban",
    "chosen: second ban for one lead",
    "chosen: ban joins a running one",
    "chosen: ban of a suit that is banned already",
    "chosen: requirement on the lead after a requirement",
    "chosen: two or more cards picked up",
    "chosen: leader's own card of the suit stays faced",
    "chosen: partner's card of another suit stays faced",
    "chosen: a single major card stays, below the ten",
    "lead: requirement obeyed",
    "lead: requirement disobeyed",
    "lead: requirement impossible",
    "lead: one ban obeyed",
    "lead: one ban disobeyed",
    "lead: one ban impossible",
    "lead: several bans obeyed",
    "lead: several bans disobeyed",
    "lead: several bans impossible",
    "lead: running ban without a code, obeyed",
    "lead: running ban without a code, disobeyed",
    "lead: running ban without a code, impossible",
    "lead: partner's major card and no choice",
    "ban: goes on after a trick",
    "ban: ended by a trick of partner's",
    "ban: ended by a trick of the other side's",
    "50C: against it, leading",
    "50C: against it, following",
    "50C: against it, void of the suit led",
    "50C: honour in place of the minor card",
    "50C: minor card played",
    "50D1: against it, leading",
    "50D1: against it, following",
    "50D1: against it, void of the suit led",
    "50D1: card played when due",
    "50D1: major card not due, since it does not obey",
    "50D1: two or more due",
    "50D1: against it, major card played that does not obey",
    "revoke: on a requirement",
    "revoke: on a ban",
    "revoke: on a ban, trick won by the leader",
    "revoke: on a lead, in a suit listed before",
    "revoke: following, in a suit listed for a lead before",
    "revoke: excused, leading",
    "revoke: excused, following",
    "revoke: excused, in a trick that a claim leaves unfinished",
    "revoke: faced card that does not excuse",
    "revoke: excused by a minor card",
    "revoke: against 50C too",
    "revoke: against 50D1 too",
    "law 64: a lead's revoke, and tricks change sides",
];

pub struct Kinds {
    pub seen: BTreeMap<&'static str, u64>,
}

impl Default for Kinds {
    fn default() -> Self {
        Kinds { seen: KINDS.iter().map(|&kind| (kind, 0)).collect() }
    }
}

/// What is kept of a record that is played over.
#[derive(Default)]
struct Past {
    picked_up: u64,
    /// The most cards that each seat has had faced at a time.
    most_faced: [usize; 4],
    /// The leader of the last lead that had a requirement, and its trick.
    required: Option<(u8, usize)>,
    /// The seats and suits of revokes on a lead.
    lead_revokes: Vec<u8>,
}

impl Kinds {
    fn add(&mut self, kind: &'static str, is: bool) {
        if is {
            *self.seen.get_mut(kind).unwrap_or_else(|| panic!("no such kind: {kind}")) += 1;
        }
    }

    /// Plays a lawful record over and counts what it shows; `changed` says whether tricks change sides.
    pub fn note(&mut self, made: &Made, changed: bool) {
        let Some(mut play) = made.position(0) else { return };
        let mut past = Past::default();
        let count = made.parts.cards.len();
        self.add("codes: 40", made.parts.codes.len() == MOST_CODES);
        for (place, &card) in made.parts.cards.iter().enumerate() {
            let unfinished = place / 4 == count / 4;
            let codes: Vec<Code> = made.parts.codes_before(place).collect();
            if !codes.is_empty() {
                self.place(place, unfinished);
            }
            for (k, &code) in codes.iter().enumerate() {
                self.code(&mut play, &mut past, code, &codes[..k]);
            }
            self.card(&mut play, &mut past, card, &codes, unfinished);
        }
        self.add("law 64: a lead's revoke, and tricks change sides", changed && !past.lead_revokes.is_empty());
    }

    fn place(&mut self, place: usize, unfinished: bool) {
        self.add("code: before the opening lead", place == 0);
        self.add("code: before a lead", place % 4 == 0);
        self.add("code: in the middle of a trick", place % 4 != 0);
        self.add("code: in a trick that a claim leaves unfinished", unfinished);
        self.add("code: on trick 13", place >= 48);
    }

    fn code(&mut self, play: &mut Play, past: &mut Past, code: Code, here: &[Code]) {
        let before = play.clone();
        assert!(play.code(code), "a lawful code");
        match code {
            Code::Exposed(card, deliberate) => self.exposed(&before, play, past, card, deliberate == 1),
            Code::Choice(kind, named) => self.chosen(&before, play, past, kind, named, here),
        }
    }

    fn exposed(&mut self, before: &Play, play: &Play, past: &mut Past, card: u64, deliberate: bool) {
        let faced = play.penalty.faced().iter().find(|f| f.card == card).expect("the exposed card");
        let others = before.penalty.faced_of(faced.owner);
        let (alone, low, again) = (others.is_empty(), rank(card) < TEN, past.picked_up >> card & 1 == 1);
        let most = &mut past.most_faced[usize::from(faced.owner)];
        self.add("exposed: minor", !faced.major);
        self.add("exposed: honour alone, by accident", alone && !low && !deliberate);
        self.add("exposed: low card alone, deliberately", alone && low && deliberate);
        self.add("exposed: second card makes a minor one major", others.len() == 1 && !others[0].major);
        self.add("exposed: third card or later", others.len() >= 2);
        self.add("exposed: again after it was picked up, minor", again && !faced.major);
        self.add("exposed: again after it was picked up, major", again && faced.major);
        self.add("exposed: minor, where this defender had two before", !faced.major && *most >= 2);
        self.add("exposed: minor, beside a card of the other defender", !faced.major && before.penalty.faced().len() > others.len());
        *most = (*most).max(others.len() + 1);
    }

    fn chosen(&mut self, before: &Play, play: &Play, past: &mut Past, kind: u64, named: u64, here: &[Code]) {
        let leader = before.turn();
        let (own, partners) = (play.penalty.faced_of(leader), play.penalty.faced_of(leader ^ 2));
        let left = before.penalty.faced().len() - play.penalty.faced().len();
        let (banned, trick) = (before.penalty.banned(), before.winners().len());
        let ban_here = here.iter().any(|code| matches!(code, Code::Choice(FORBID, _)));
        self.add("chosen: requirement", kind == REQUIRE);
        self.add("chosen: ban", kind == FORBID);
        self.add("chosen: second ban for one lead", kind == FORBID && ban_here);
        self.add("chosen: ban joins a running one", kind == FORBID && !ban_here && banned != [false; 4]);
        self.add("chosen: ban of a suit that is banned already", kind == FORBID && banned[named as usize]);
        self.add("chosen: requirement on the lead after a requirement", kind == REQUIRE && past.required == Some((leader, trick)));
        self.add("chosen: two or more cards picked up", left >= 2);
        self.add("chosen: leader's own card of the suit stays faced", own.iter().any(|f| suit(f.card) == named));
        self.add("chosen: partner's card of another suit stays faced", !partners.is_empty());
        self.add("chosen: a single major card stays, below the ten", matches!(partners[..], [f] if rank(f.card) < TEN));
        if kind == REQUIRE {
            past.required = Some((leader, trick + 1));
        }
        past.picked_up |= before.penalty.faced().iter().filter(|f| !play.penalty.faced().contains(f)).fold(0, |set, f| set | 1 << f.card);
    }

    fn card(&mut self, play: &mut Play, past: &mut Past, card: u64, codes: &[Code], unfinished: bool) {
        let (turn, faced, banned, leads) = (play.at_turn(), play.faced_at_turn(), play.penalty.banned(), play.to_lead().is_some());
        if leads && play.penalty.defends(turn.seat) {
            self.lead(play, &turn, card, codes);
        }
        self.law_50(&turn, &faced, card);
        let listed = play.revokes().len();
        assert!(play.card(card), "a lawful card");
        if play.revokes().len() > listed {
            self.revoke(&turn, &faced, play.revokes(), past, unfinished);
        }
        if play.to_lead().is_none() {
            return;
        }
        let (leader, winner) = ((turn.seat + 1) & 3, play.turn());
        let running = banned != [false; 4];
        self.add("ban: goes on after a trick", running && winner == leader);
        self.add("ban: ended by a trick of partner's", running && winner == leader ^ 2);
        self.add("ban: ended by a trick of the other side's", running && (winner ^ leader) & 1 == 1);
        let trick = play.winners().len() as u8;
        let on_ban = |byte: &u8| byte >> 4 == trick && byte >> 2 & 3 == leader;
        self.add("revoke: on a ban, trick won by the leader", running && winner == leader && past.lead_revokes.iter().any(on_ban));
    }

    fn lead(&mut self, play: &Play, turn: &Turn, card: u64, codes: &[Code]) {
        let bans = turn.banned.iter().filter(|&&ban| ban).count();
        let of_this_lead = codes.iter().any(|code| matches!(code, Code::Choice(..)));
        let kinds = match (turn.required, bans, of_this_lead) {
            (Some(_), _, _) => ["lead: requirement obeyed", "lead: requirement disobeyed", "lead: requirement impossible"],
            (None, 0, _) => {
                let major = play.penalty.faced_of(turn.seat ^ 2).iter().any(|f| f.major);
                return self.add("lead: partner's major card and no choice", major);
            }
            (None, _, false) => [
                "lead: running ban without a code, obeyed",
                "lead: running ban without a code, disobeyed",
                "lead: running ban without a code, impossible",
            ],
            (None, 1, true) => ["lead: one ban obeyed", "lead: one ban disobeyed", "lead: one ban impossible"],
            (None, _, true) => ["lead: several bans obeyed", "lead: several bans disobeyed", "lead: several bans impossible"],
        };
        let met = match turn.required {
            Some(named) => suit(card) == named,
            None => !turn.banned[suit(card) as usize],
        };
        let kind = match (turn.obeys(card), met) {
            (false, _) => 1,
            (true, true) => 0,
            (true, false) => 2,
        };
        self.add(kinds[kind], true);
    }

    fn law_50(&mut self, turn: &Turn, faced: &[Faced], card: u64) {
        let against = turn.against_law_50(faced, card);
        let follows = turn.led.is_some_and(|led| turn.hand >> (13 * led) & 0x1FFF != 0);
        let how = |kinds: [&'static str; 3]| kinds[if turn.led.is_none() { 0 } else { 2 - usize::from(follows) }];
        match faced {
            [] => {}
            [minor] if !minor.major => {
                let kinds = ["50C: against it, leading", "50C: against it, following", "50C: against it, void of the suit led"];
                self.add(how(kinds), against);
                let honour = card != minor.card && suit(card) == suit(minor.card) && rank(card) >= TEN;
                self.add("50C: honour in place of the minor card", honour);
                self.add("50C: minor card played", card == minor.card);
                self.add("revoke: against 50C too", against && !turn.obeys(card));
            }
            _ => {
                let kinds = ["50D1: against it, leading", "50D1: against it, following", "50D1: against it, void of the suit led"];
                let due: Vec<u64> = faced.iter().map(|f| f.card).filter(|&card| turn.obeys(card)).collect();
                let own = faced.iter().any(|f| f.card == card);
                self.add(how(kinds), against);
                self.add("50D1: card played when due", due.contains(&card));
                self.add("50D1: major card not due, since it does not obey", due.len() < faced.len());
                self.add("50D1: two or more due", due.len() >= 2);
                self.add("50D1: against it, major card played that does not obey", against && own);
                self.add("revoke: against 50D1 too", against && !turn.obeys(card));
            }
        }
    }

    /// The last of the revokes in the list, by a seat with these cards faced.
    fn revoke(&mut self, turn: &Turn, faced: &[Faced], list: &[u8], past: &mut Past, unfinished: bool) {
        let (&revoke, before) = list.split_last().expect("a revoke");
        let same = |other: &u8| other & 15 == revoke & 15;
        let excuse = faced.iter().find(|f| turn.obeys(f.card));
        let leads = turn.led.is_none();
        self.add("revoke: on a requirement", leads && turn.required.is_some());
        self.add("revoke: on a ban", leads && turn.required.is_none());
        self.add("revoke: on a lead, in a suit listed before", leads && before.iter().any(same));
        self.add("revoke: following, in a suit listed for a lead before", !leads && past.lead_revokes.iter().any(same));
        self.add("revoke: excused, leading", leads && excuse.is_some());
        self.add("revoke: excused, following", !leads && excuse.is_some());
        self.add("revoke: excused, in a trick that a claim leaves unfinished", unfinished && excuse.is_some());
        self.add("revoke: faced card that does not excuse", !faced.is_empty() && excuse.is_none());
        self.add("revoke: excused by a minor card", excuse.is_some_and(|f| !f.major));
        if leads {
            past.lead_revokes.push(revoke);
        }
    }
}
