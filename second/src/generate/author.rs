//! Writes requests, following a controller so that a good share is done.

mod resize;

use std::cmp::Reverse;
use std::collections::{BTreeSet, VecDeque};

use crate::controller::{Answer, Controller, Request, LONGEST_RUN};
use crate::domain::Domain;
use crate::geometry::{Place, SLOTS};
use crate::holes::Hole;
use crate::layout::{Board, Sizes};
use crate::rng::Rng;
use resize::Next;

/// The longest list of single releases planned at once.
const MOST_RELEASES: usize = 900;
/// The most stretches that a restarted domain maps again.
const MOST_STRETCHES: usize = 6;

/// An endless list of requests. It plans some at a time: single calls, or a
/// phase that fills a domain, one that releases its pages in a pattern, or one
/// that restarts a few domains. On a board without holes it draws as if there
/// were none such. Fills change nothing and have draws of their own, so the other
/// requests are as if there were none. Trims, and phases in which a domain grows
/// and shrinks, have draws of their own too.
pub struct Author {
    rng: Rng,
    fills: Rng,
    trims: Rng,
    controller: Controller,
    planned: VecDeque<Request>,
    favourite: usize,
    /// The domain word of the last request.
    last: usize,
    /// How a phase of growing and shrinking goes on.
    next: Option<Next>,
}

impl Author {
    pub fn new(seed: u64, board: impl Into<Board>) -> Author {
        let board = board.into();
        let mut rng = Rng::new(seed);
        let favourite = rng.below(board.sizes().domains());
        let fills = Rng::new(rng.clone().word() ^ 0xF111);
        let trims = Rng::new(rng.clone().word() ^ 0x7216);
        Author {
            rng,
            fills,
            trims,
            controller: Controller::new(board),
            planned: VecDeque::new(),
            favourite,
            last: favourite,
            next: None,
        }
    }

    pub fn controller(&self) -> &Controller {
        &self.controller
    }

    pub fn into_controller(self) -> Controller {
        self.controller
    }

    /// The next request, which the author's controller has then answered.
    pub fn next_request(&mut self) -> Request {
        self.next_answered().0
    }

    /// The next request and the answer of the author's controller.
    pub fn next_answered(&mut self) -> (Request, Answer) {
        let apart = self.fill().or_else(|| self.trim());
        let request = apart.unwrap_or_else(|| self.next_other());
        self.last = request[1] as usize;
        (request, self.controller.answer(request))
    }

    /// The next request of the plan, or a stray one.
    fn next_other(&mut self) -> Request {
        while self.planned.is_empty() {
            if !self.resize() {
                self.plan();
            }
        }
        if self.rng.percent(8) {
            self.stray()
        } else {
            self.planned.pop_front().unwrap_or([1, 0, 0, 0])
        }
    }

    /// Now and then a fill, more often of a domain that the last request left
    /// full; or a number beside it, which no call has.
    fn fill(&mut self) -> Option<Request> {
        let full = self.controller.domain(self.last).is_some_and(is_full);
        if full && self.fills.percent(50) {
            return Some([11, self.last as u64, 0, 0]);
        }
        if !self.fills.percent(6) {
            return None;
        }
        let beside = self.fills.pick(&[9, 10, 12]);
        let call = if self.fills.percent(8) { beside } else { 11 };
        Some([call, self.asked() as u64, 0, 0])
    }

    /// A domain that is dead, without TreeLings, without pages or full, if there
    /// is one; or any, or the favourite.
    fn asked(&mut self) -> usize {
        let kind = self.fills.below(8);
        let domains = self.domains(|domain| match (kind, domain) {
            (0, domain) => domain.is_none(),
            (1, Some(domain)) => domain.slots() == 0,
            (2, Some(domain)) => domain.slots() > 0 && domain.pages == 0,
            (3, Some(domain)) => is_full(domain),
            (4 | 5, _) => true,
            _ => false,
        });
        if domains.is_empty() {
            return self.favourite;
        }
        self.fills.pick(&domains)
    }

    /// The domains that are so; a dead one is none.
    fn domains(&self, so: impl Fn(Option<&Domain>) -> bool) -> Vec<usize> {
        let all = 0..self.controller.sizes().domains();
        all.filter(|&id| so(self.controller.domain(id))).collect()
    }

    fn add(&mut self, call: u64, domain: usize, frame: usize, count: usize) {
        let request = [call, domain as u64, frame as u64, count as u64];
        self.planned.push_back(request);
    }

    /// Something that does not belong to the plan.
    fn stray(&mut self) -> Request {
        let domain = self.rng.below(self.controller.sizes().domains()) as u64;
        let frame = self.frame() as u64;
        match self.rng.below(4) {
            0 => malformed(&mut self.rng, self.controller.sizes()),
            1 => [5, domain, frame, 0],
            2 => [3, domain, frame, 0],
            _ => [1, domain, 0, 0],
        }
    }

    fn frame(&mut self) -> usize {
        self.rng.below(self.controller.sizes().frames())
    }

    fn domain(&mut self) -> usize {
        let count = self.controller.sizes().domains();
        if self.rng.percent(2) {
            self.favourite = self.rng.below(count);
        }
        if self.rng.percent(60) {
            self.favourite
        } else {
            self.rng.below(count)
        }
    }

    /// A legal frame that this domain has mapped, or that nobody has, if a few
    /// tries find one.
    fn frame_of(&mut self, mapper: Option<usize>) -> usize {
        let start = self.frame();
        let board = self.controller.board();
        (0..64)
            .map(|step| (start + step) % board.sizes().frames())
            .find(|&frame| board.is_legal(frame) && self.controller.mapper(frame) == mapper)
            .unwrap_or(start)
    }

    fn holes(&self) -> Vec<Hole> {
        self.controller.board().holes().iter().collect()
    }

    fn plan(&mut self) {
        let domain = self.domain();
        if self.controller.domain(domain).is_none() && self.rng.percent(80) {
            return self.add(1, domain, 0, 0);
        }
        let holes = self.holes();
        if !holes.is_empty() && self.rng.percent(15) {
            return self.at_holes(domain, &holes);
        }
        match self.rng.below(108) {
            0..=26 => self.single(3, domain, None),
            27..=40 => self.single(4, domain, Some(domain)),
            41..=47 => self.single(5, domain, Some(domain)),
            48..=56 => {
                let request = malformed(&mut self.rng, self.controller.sizes());
                self.planned.push_back(request);
            }
            57..=64 => self.refused(domain),
            65..=70 => self.run(domain),
            71..=78 => self.at_limit(domain),
            79..=87 => self.fill_up(domain),
            88..=96 => self.scatter(domain),
            97 => self.close(domain),
            98..=99 => self.add(1, domain, 0, 0),
            _ => self.restart(domain),
        }
    }

    fn single(&mut self, call: u64, domain: usize, mapper: Option<usize>) {
        let frame = self.frame_of(mapper);
        self.add(call, domain, frame, 0);
    }

    /// Closes, and mostly opens again.
    fn close(&mut self, domain: usize) {
        self.add(2, domain, 0, 0);
        if self.rng.percent(70) {
            self.add(1, domain, 0, 0);
        }
    }

    /// Most of a few domains close, then most of them start, in any order; so up
    /// to four times. A former TreeLing is taken back, or by another before that.
    fn restart(&mut self, domain: usize) {
        let mut guests = self.guests(domain);
        for guest in guests.iter().filter(|guest| !guest.started) {
            self.take_in_vain(guest.domain);
        }
        for _ in 0..self.rng.between(1, 4) {
            if self.planned.len() > 30 {
                break;
            }
            self.rng.shuffle(&mut guests);
            self.close_most(&mut guests);
            self.rng.shuffle(&mut guests);
            self.start_most(&mut guests);
        }
    }

    fn close_most(&mut self, guests: &mut [Guest]) {
        for guest in guests.iter_mut().filter(|guest| guest.started) {
            if self.rng.percent(70) {
                guest.started = false;
                self.add(2, guest.domain, 0, 0);
            }
        }
    }

    fn start_most(&mut self, guests: &mut [Guest]) {
        for guest in guests.iter_mut().filter(|guest| !guest.started) {
            if self.rng.percent(70) {
                guest.started = true;
                self.start(guest);
            }
        }
    }

    /// This domain, up to three that have TreeLings, and one that held none last.
    fn guests(&mut self, domain: usize) -> Vec<Guest> {
        let all = 0..self.controller.sizes().domains();
        let mut guests: Vec<usize> = all.filter(|&id| self.has_treelings(id)).collect();
        self.rng.shuffle(&mut guests);
        guests.truncate(3);
        guests.push(self.stranger());
        guests.push(domain);
        guests.sort_unstable();
        guests.dedup();
        guests.into_iter().map(|guest| self.guest(guest)).collect()
    }

    fn has_treelings(&self, domain: usize) -> bool {
        let domain = self.controller.domain(domain);
        domain.is_some_and(|domain| !domain.treelings.is_empty())
    }

    /// A domain that no TreeLing was last held by, if there is one.
    fn stranger(&mut self) -> usize {
        let sizes = self.controller.sizes();
        let pool = self.controller.pool();
        let former = (0..sizes.treelings()).filter_map(|treeling| pool.former(treeling));
        let former: BTreeSet<usize> = former.collect();
        let first = self.rng.below(sizes.domains());
        (first..sizes.domains())
            .chain(0..first)
            .find(|domain| !former.contains(domain))
            .unwrap_or(first)
    }

    /// A domain with its longest stretches, or with a frame that nobody has mapped.
    fn guest(&mut self, domain: usize) -> Guest {
        let mut stretches = self.own_stretches(domain);
        stretches.sort_by_key(|&(_, length)| Reverse(length));
        stretches.truncate(MOST_STRETCHES);
        if stretches.is_empty() {
            stretches.push((self.frame_of(None), 1));
        }
        Guest {
            domain,
            started: self.has_treelings(domain),
            stretches,
        }
    }

    /// Opens a domain that maps a page of what it had, or its stretches and
    /// perhaps a run more.
    fn start(&mut self, guest: &Guest) {
        let domain = guest.domain;
        self.add(1, domain, 0, 0);
        if self.rng.percent(40) {
            let (start, length) = self.rng.pick(&guest.stretches);
            let frame = start + self.rng.below(length);
            return self.add(3, domain, frame, 0);
        }
        for &(start, length) in &guest.stretches {
            self.fill_gap(domain, start, length, (LONGEST_RUN, LONGEST_RUN));
        }
        if self.rng.percent(30) {
            let (start, length) = longest_of(&self.gaps());
            self.add(6, domain, start, length.min(LONGEST_RUN));
        }
    }

    /// Opens a domain whose first run takes a TreeLing and is refused by 12: it
    /// goes a frame past a gap.
    fn take_in_vain(&mut self, domain: usize) {
        let mut gaps = self.gaps();
        gaps.retain(|&(start, length)| self.controller.mapper(start + length).is_some());
        if gaps.is_empty() {
            return;
        }
        let (start, length) = self.rng.pick(&gaps);
        let inside = self.rng.between(1, length.min(20));
        self.add(1, domain, 0, 0);
        self.add(6, domain, start + length - inside, inside + 1);
    }

    /// A short run, mapped or unmapped.
    fn run(&mut self, domain: usize) {
        let map = self.rng.percent(60);
        let frame = self.frame_of(if map { None } else { Some(domain) });
        let most = self.controller.sizes().frames() - frame;
        let longest = self.rng.pick(&[2, 9, 40, 300]);
        let count = self.rng.between(1, most.min(longest));
        self.add(if map { 6 } else { 7 }, domain, frame, count);
    }

    /// Runs of 2,047 to 2,049 frames, where the board has so many.
    fn at_limit(&mut self, domain: usize) {
        for _ in 0..self.rng.between(1, 4) {
            match self.rng.below(3) {
                0 => self.runs_over(6, domain, &self.gaps()),
                1 => self.runs_over(7, domain, &self.own_stretches(domain)),
                _ => self.out_of_places(domain),
            }
        }
    }

    /// Such runs over the longest stretch, or from any frame of any to its end;
    /// the last one goes past it.
    fn runs_over(&mut self, call: u64, domain: usize, stretches: &[(usize, usize)]) {
        let (start, length) = if !stretches.is_empty() && self.rng.percent(50) {
            let (start, length) = self.rng.pick(stretches);
            let skipped = self.rng.below(length);
            (start + skipped, length - skipped)
        } else {
            longest_of(stretches)
        };
        let mut done = 0;
        while done < length && self.planned.len() < 20 {
            done += self.limit_run(call, domain, start + done);
        }
    }

    /// One such run, from this frame or the last one where it fits; its count.
    fn limit_run(&mut self, call: u64, domain: usize, frame: usize) -> usize {
        let count = self.rng.between(LONGEST_RUN - 1, LONGEST_RUN + 1);
        if let Some(last) = self.controller.sizes().frames().checked_sub(count) {
            self.add(call, domain, frame.min(last), count);
        }
        count
    }

    /// Such a run in the longest gap, if that has more frames than there are
    /// places. Before it so many are mapped, or a few released, that the places
    /// end in its middle.
    fn out_of_places(&mut self, domain: usize) {
        let (start, length) = longest_of(&self.gaps());
        let places = self.places(domain);
        if length <= places {
            return;
        }
        let left = self.rng.between(1, LONGEST_RUN - 2);
        let filled = places.saturating_sub(left);
        self.fill_gap(domain, start, filled, (LONGEST_RUN - 2, LONGEST_RUN));
        if places == 0 {
            let (own, pages) = longest_of(&self.own_stretches(domain));
            self.add(7, domain, own, pages.min(left));
        }
        self.limit_run(6, domain, start + filled);
    }

    /// How many places are left to a domain.
    fn places(&self, domain: usize) -> usize {
        let pool = self.controller.pool();
        let own = |&treeling: &usize| pool.owner(treeling).is_none_or(|o| o.domain == domain);
        let treelings = (0..self.controller.sizes().treelings()).filter(own).count();
        let pages = self.controller.domain(domain).map_or(0, |d| d.pages);
        SLOTS * treelings - pages
    }

    /// Well-formed requests that the state refuses, some in mid-run.
    fn refused(&mut self, domain: usize) {
        let frames = self.controller.sizes().frames();
        let frame = self.frame();
        match self.rng.below(7) {
            // 12, perhaps in mid-run.
            0 => {
                let mapped = self.frame_of(Some(domain));
                self.around(6, domain, mapped);
            }
            // 14, perhaps in mid-run.
            1 => {
                let unmapped = self.frame_of(None);
                self.around(7, domain, unmapped);
            }
            // 14 or 12: another domain's frame.
            2 => {
                let other = self.rng.below(self.controller.sizes().domains());
                let theirs = self.frame_of(Some(other));
                let call = self.rng.pick(&[3, 4, 5]);
                self.add(call, domain, theirs, 0);
            }
            // 13 in mid-run, if there are more frames than places.
            3 => {
                let (start, length) = longest_of(&self.gaps());
                self.add(6, domain, start, length.min(LONGEST_RUN));
            }
            // 11.
            4 => {
                let call = self.rng.pick(&[2, 3, 4, 5]);
                let dead = (0..self.controller.sizes().domains())
                    .find(|&id| self.controller.domain(id).is_none());
                let frame = if call == 2 { 0 } else { frame };
                // A close is for dead domains only here.
                match dead {
                    Some(dead) => self.add(call, dead, frame, 0),
                    None => self.add(1, domain, 0, 0),
                }
            }
            5 => self.add(1, domain, 0, 0),
            _ => self.add(7, domain, frame, LONGEST_RUN.min(frames - frame)),
        }
    }

    /// A run with this frame somewhere in it.
    fn around(&mut self, call: u64, domain: usize, frame: usize) {
        let before = self.rng.below(20).min(frame);
        let start = frame - before;
        let most = self.controller.sizes().frames() - start;
        let count = (before + 1 + self.rng.below(20)).min(most);
        self.add(call, domain, start, count);
    }

    /// Requests at the ends of a hole: a frame of it or beside it, a run that
    /// ends or begins there, one that swallows it, one up to the next hole.
    fn at_holes(&mut self, domain: usize, holes: &[Hole]) {
        let index = self.rng.below(holes.len());
        let (hole, next) = (holes[index], holes.get(index + 1));
        let inside = self.rng.below(2);
        match self.rng.below(6) {
            0 | 1 => self.beside(domain, hole),
            // With its first frame, or just without.
            2 => {
                let start = hole.first.saturating_sub(self.length());
                self.run_to(domain, start, hole.first + inside);
            }
            // With its last frame, or just without.
            3 => {
                let end = hole.end() + self.length();
                self.run_to(domain, hole.end() - inside, end);
            }
            4 => {
                let start = hole.first.saturating_sub(self.rng.below(3));
                let end = hole.end() + self.rng.below(3);
                self.run_to(domain, start, end);
            }
            _ => {
                let end = next.map_or(self.controller.sizes().frames(), |next| next.first);
                let start = hole.end() - self.rng.pick(&[0, 0, inside]);
                let end = end + self.rng.pick(&[0, 0, 1]);
                self.run_to(domain, start, end);
            }
        }
    }

    /// Single calls of a hole's first or last frame, or of the frames around it.
    fn beside(&mut self, domain: usize, hole: Hole) {
        let (first, end) = (hole.first, hole.end());
        let frames = [first.saturating_sub(1), first, end - 1, end];
        for _ in 0..self.rng.between(1, 4) {
            let frame = self.rng.pick(&frames);
            let call = self.rng.pick(&[3, 3, 4, 5]);
            self.add(call, domain, frame, 0);
        }
    }

    /// Frames of a run beside a hole.
    fn length(&mut self) -> usize {
        let longest = self.rng.pick(&[1, 3, 40, 300, LONGEST_RUN]);
        self.rng.between(1, longest)
    }

    /// Maps the frames from `start` to before `end` and perhaps unmaps them
    /// again, or only unmaps them; frames past P or the longest run are cut.
    fn run_to(&mut self, domain: usize, start: usize, end: usize) {
        let end = end.min(self.controller.sizes().frames());
        let count = end.saturating_sub(start).min(LONGEST_RUN);
        let calls: &[u64] = self.rng.pick(&[&[6][..], &[6], &[7], &[6, 7]]);
        for &call in calls {
            self.add(call, domain, start, count);
        }
    }

    /// The stretches of legal frames that are unmapped, as start and length.
    fn gaps(&self) -> Vec<(usize, usize)> {
        let mapped = self.controller.leaf_map.keys().map(|&frame| (frame, 1));
        let mut taken: Vec<(usize, usize)> = mapped.collect();
        taken.extend(self.holes().iter().map(|hole| (hole.first, hole.length)));
        taken.sort_unstable();
        taken.push((self.controller.sizes().frames(), 0));
        let mut gaps = Vec::new();
        let mut start = 0;
        for (first, length) in taken {
            if start < first {
                gaps.push((start, first - start));
            }
            start = first + length;
        }
        gaps
    }

    /// The stretches of frames that a domain has mapped.
    fn own_stretches(&self, domain: usize) -> Vec<(usize, usize)> {
        let mut stretches = Vec::new();
        for (frame, _) in self.controller.mapped_by(domain) {
            lengthen(&mut stretches, frame);
        }
        stretches
    }

    /// Maps runs over the unmapped frames, up to a number of pages around a
    /// multiple of a block, of a TreeLing, or all there are.
    fn fill_up(&mut self, domain: usize) {
        let Some(pages) = self.controller.domain(domain).map(|d| d.pages) else {
            return self.add(1, domain, 0, 0);
        };
        let goal = match self.rng.below(6) {
            0 => pages + self.rng.between(1, 200),
            1 => (pages / 64 + self.rng.between(1, 4)) * 64,
            2 | 3 => (pages / 4_096 + 1) * 4_096,
            4 => (pages / 4_096 + 1) * 4_096 + self.rng.below(600),
            _ => usize::MAX,
        };
        let mut left = goal.saturating_sub(pages);
        let near = (LONGEST_RUN - 2, LONGEST_RUN);
        let pieces = [(35, 70), (200, 400), (750, 1_500), near, near];
        let piece = self.rng.pick(&pieces);
        for (start, length) in self.gaps() {
            if left == 0 || self.planned.len() >= 40 {
                break;
            }
            left -= self.fill_gap(domain, start, length.min(left), piece);
        }
    }

    /// Maps one stretch in pieces of so many frames at least and at most; how
    /// many frames it planned.
    fn fill_gap(
        &mut self,
        domain: usize,
        start: usize,
        length: usize,
        (least, most): (usize, usize),
    ) -> usize {
        let mut done = 0;
        while done < length && self.planned.len() < 60 {
            let piece = self.rng.between(least, most).min(length - done);
            self.add(6, domain, start + done, piece);
            done += piece;
        }
        done
    }

    /// Releases a domain's pages in a pattern that moves the head back, down
    /// to block 0 of rank 0 and into regathering, then maps some again.
    fn scatter(&mut self, domain: usize) {
        let pages = self.controller.mapped_by(domain);
        let released = match self.rng.below(6) {
            0 | 1 => self.by_nodes(&pages),
            2 => self.at_random(&pages),
            3 => self.backwards(&pages),
            _ => return self.runs_with_gaps(domain, &pages),
        };
        for &frame in &released {
            self.add(4, domain, frame, 0);
        }
        self.map_again(domain, released);
    }

    fn map_again(&mut self, domain: usize, mut released: Vec<usize>) {
        match self.rng.below(3) {
            0 => return,
            1 => self.rng.shuffle(&mut released),
            _ => {}
        }
        let most = self.rng.pick(&[5, 40, 300]);
        for frame in released.into_iter().take(most) {
            self.add(3, domain, frame, 0);
        }
    }

    /// One page of each node, node by node, then a second of each. If it is
    /// every second or third node only, the others stay without a free
    /// position, and nodes come to have more than one entry.
    fn by_nodes(&mut self, pages: &[(usize, Place)]) -> Vec<usize> {
        let mut keyed: Vec<(usize, usize, usize)> = Vec::new();
        let mut sorted = pages.to_vec();
        sorted.sort_by_key(|&(_, place)| place);
        let every = self.rng.between(1, 3);
        sorted.retain(|(_, place)| place.node() % every == 0);
        let mut last = (usize::MAX, 0);
        for (frame, place) in sorted {
            let node = place.node();
            let turn = if last.0 == node { last.1 + 1 } else { 0 };
            last = (node, turn);
            keyed.push((turn, node, frame));
        }
        keyed.sort_unstable();
        let frames = keyed.into_iter().map(|(_, _, frame)| frame);
        frames.take(MOST_RELEASES).collect()
    }

    fn at_random(&mut self, pages: &[(usize, Place)]) -> Vec<usize> {
        let mut frames: Vec<usize> = pages.iter().map(|&(frame, _)| frame).collect();
        self.rng.shuffle(&mut frames);
        frames.truncate(self.rng.between(1, MOST_RELEASES));
        frames
    }

    /// Every few frames, from the last one down.
    fn backwards(&mut self, pages: &[(usize, Place)]) -> Vec<usize> {
        let step = self.rng.between(1, 12);
        let frames = pages.iter().rev().step_by(step);
        let frames = frames.map(|&(frame, _)| frame);
        frames.take(MOST_RELEASES).collect()
    }

    /// Unmaps runs and leaves single frames between them, then unmaps those.
    fn runs_with_gaps(&mut self, domain: usize, pages: &[(usize, Place)]) {
        let longest = self.rng.pick(&[20, 100, 500]);
        let mut kept = Vec::new();
        let mut runs = Vec::new();
        let mut left = 0;
        for &(frame, _) in pages {
            if left == 0 {
                left = self.rng.between(1, longest);
                kept.push(frame);
                continue;
            }
            left -= 1;
            lengthen(&mut runs, frame);
        }
        runs.truncate(MOST_RELEASES);
        kept.truncate(MOST_RELEASES);
        for &(start, length) in &runs {
            self.add(7, domain, start, length);
        }
        for &frame in &kept {
            self.add(4, domain, frame, 0);
        }
        if self.rng.percent(50) {
            self.rng.shuffle(&mut runs);
            for (start, length) in runs.into_iter().take(30) {
                self.add(6, domain, start, length);
            }
        }
    }
}

/// A domain that may restart.
struct Guest {
    domain: usize,
    /// Has it TreeLings, if all goes as planned?
    started: bool,
    /// The frames that it maps when it starts, as start and length.
    stretches: Vec<(usize, usize)>,
}

/// Has it TreeLings, and a page in each slot?
fn is_full(domain: &Domain) -> bool {
    domain.pages > 0 && domain.pages == domain.slots()
}

/// The longest of the stretches.
fn longest_of(stretches: &[(usize, usize)]) -> (usize, usize) {
    let longest = stretches.iter().max_by_key(|&&(_, length)| length);
    longest.copied().unwrap_or((0, 1))
}

/// Adds a frame to the stretches below it, to the last one if that ends there.
fn lengthen(stretches: &mut Vec<(usize, usize)>, frame: usize) {
    match stretches.last_mut() {
        Some((start, length)) if *start + *length == frame => *length += 1,
        _ => stretches.push((frame, 1)),
    }
}

/// A request that is refused by 7, 8 or 9, often for more than one reason.
pub fn malformed(rng: &mut Rng, sizes: Sizes) -> Request {
    let domains = sizes.domains() as u64;
    let frames = sizes.frames() as u64;
    let call = rng.pick(&[1, 2, 3, 4, 5, 6, 7, 8, 11]);
    let domain = rng.below(sizes.domains()) as u64;
    let frame = rng.below(sizes.frames()) as u64;
    let huge = [u64::MAX, u64::MAX - 1, 1 << 63, 1 << 32, rng.word()];
    let huge = rng.pick(&huge);
    match rng.below(11) {
        0 => [rng.pick(&[0, 9, 10, 12, 13, 255, huge]), domain, frame, 0],
        1 => {
            let call = rng.pick(&[1, 2, 8, 11]);
            [call, domain, rng.pick(&[1, frames, huge]), 0]
        }
        2 => {
            let call = rng.pick(&[1, 2, 3, 4, 5, 8, 11]);
            [call, domain, 0, rng.pick(&[1, huge])]
        }
        3 => [call, rng.pick(&[domains, domains + 1, huge]), 0, 0],
        4 => {
            let past = rng.pick(&[frames, frames + 1, huge]);
            [rng.between(3, 5) as u64, domain, past, 0]
        }
        5..=9 => {
            let (frame, count) = malformed_run(rng, frames, frame, huge);
            [rng.pick(&[6, 7]), domain, frame, count]
        }
        // Everything at once.
        _ => [
            rng.pick(&[0, 3, 6, 8, 11, huge]),
            rng.pick(&[domains, huge]),
            rng.pick(&[frames, huge]),
            huge,
        ],
    }
}

/// Frame and count of a run that is refused by 9.
fn malformed_run(rng: &mut Rng, frames: u64, frame: u64, huge: u64) -> (u64, u64) {
    match rng.below(5) {
        0 => (frame, 0),
        1 => (frame, frames - frame + 1),
        // More than the longest run, within P if the board has so many.
        2 => {
            let count = (LONGEST_RUN + rng.pick(&[1, 2, 9, 100])) as u64;
            (frame.min(frames.saturating_sub(count)), count)
        }
        // Frame and count past the word's end.
        3 => {
            let wrap = 0_u64.wrapping_sub(frame);
            let count = rng.pick(&[wrap, wrap.wrapping_add(1), u64::MAX, huge]);
            (frame, count.max(frames - frame + 1))
        }
        _ => {
            let past = rng.pick(&[frames, huge]);
            (past, rng.pick(&[1, 0_u64.wrapping_sub(past), huge]))
        }
    }
}
