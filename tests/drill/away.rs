//! What the files of a comparison reached of boxes that go away and come back (document 02, wish 8).
use crate::generate::on_the_way;
use reference::{decode, Answer, Attempt, Department, Floor, Held, Parts, Phase, Played, Refusal, Register, Request, Said};
use reference::{State, Step, DEPARTMENTS, ROWS};
use crate::Coverage;
use std::collections::{BTreeMap, BTreeSet};

/// How the lines of the coverage about boxes that are away start.
pub const AWAY: &str = "away: ";

/// Situations, and whether a step reached them.
type Lines = Vec<(&'static str, bool)>;

/// A request: its row, its phase and its box.
type Asked = (usize, Phase, usize);

/// What is known of a box beside its records.
#[derive(Clone, Default)]
struct Past {
    /// the kinds that put it away, in order
    kinds: Vec<u8>,
    returns: usize,
    /// its records when it came back last
    then: Option<[Register; 2]>,
}

/// What is known of a request that waits, or of its answer.
#[derive(Clone, Copy, Default)]
struct Course {
    /// how many absences of its box it waited through
    waited: usize,
    /// whether its box was away when it was issued
    issued_away: bool,
    /// whether its box went while the answer was on the way
    went_behind: bool,
}

/// A run that is played again.
struct Watch {
    floor: Floor,
    boxes: Vec<Past>,
    courses: BTreeMap<(usize, bool, usize), Course>,
    /// of the attempt last begun in each row: the boxes that were away since, and whether fewer than q answered at some time
    absent: BTreeMap<usize, BTreeSet<usize>>,
    short: BTreeSet<usize>,
    /// the rows with a request that was served after it had waited at a box that was away
    late: BTreeSet<usize>,
    /// whether fewer than q answered, and whether none did
    few: bool,
    none: bool,
}

/// What a played file reached. Its steps are played again, the refused one too. A line that it does not reach is counted 0 times.
pub fn cover(parts: &Parts, played: &Played, reached: &mut Coverage) {
    let mut watch = Watch::new(parts);
    let mut all: BTreeMap<&str, bool> = BTreeMap::new();
    for record in parts.records.clone().take(played.trace.len() + 1) {
        let lines = match decode(record) {
            Ok(step) => watch.step(record[0], step),
            Err(_) => no_step(record, &watch.floor),
        };
        for (what, holds) in lines {
            *all.entry(what).or_insert(false) |= holds;
        }
    }
    all.extend(watch.at_the_end());
    for (what, holds) in all {
        *reached.entry(format!("{AWAY}{what}")).or_insert(0) += holds as usize;
    }
}

/// A record that is refusal 7.
fn no_step(record: &[u8], floor: &Floor) -> Lines {
    let (kind, storage) = (record[0], floor.boxes.get(record[1] as usize));
    let spare = record[2..].iter().any(|b| *b != 0);
    let last = record[7] != 0 && record[2..7].iter().all(|b| *b == 0);
    vec![
        ("refusal  7 to kind 10", kind == 10),
        ("refusal  7 to kind 255", kind == 255),
        ("refusal  7 to kind 6, a spare byte", kind == 6 && spare),
        ("refusal  7 to kind 8, a spare byte", kind == 8 && spare),
        ("refusal  7 to kind 9, a spare byte", kind == 9 && spare),
        ("refusal  7 to kind 8 or 9, the last byte alone", (8..=9).contains(&kind) && last),
        ("refusal  7 to kind 6 or 8 at a box that is away", (kind == 6 || kind == 8) && storage.is_some_and(|b| b.away)),
        ("refusal  7 to kind 9 at a box that answers", kind == 9 && storage.is_some_and(|b| !b.away)),
        ("refusal  7 to kind 6, 8 or 9 at no box", [6, 8, 9].contains(&kind) && storage.is_none()),
    ]
}

impl Watch {
    fn new(parts: &Parts) -> Watch {
        Watch {
            floor: Floor::new(parts.n, &parts.stations()),
            boxes: vec![Past::default(); parts.n],
            courses: BTreeMap::new(),
            absent: BTreeMap::new(),
            short: BTreeSet::new(),
            late: BTreeSet::new(),
            few: false,
            none: false,
        }
    }

    fn step(&mut self, kind: u8, step: Step) -> Lines {
        match step {
            Step::Begin { station, .. } => self.begin(step, station),
            Step::Serve { phase, attempt, at } => self.serve(step, (attempt, phase, at)),
            Step::Deliver { phase, attempt, from } => self.deliver(step, (attempt, phase, from)),
            Step::Stop { at } => self.stop(step, kind, at),
            Step::Back { at } => self.back(step, at),
            Step::Gone { .. } => {
                let _ = self.floor.step(step);
                Vec::new()
            }
        }
    }

    fn away(&self, b: usize) -> bool {
        self.floor.boxes.get(b).is_some_and(|storage| storage.away)
    }

    fn answering(&self) -> usize {
        self.floor.boxes.iter().filter(|b| !b.away).count()
    }

    /// The requests that wait at a box.
    fn waiting(&self, b: usize) -> Vec<Asked> {
        let of = |row: usize| [(row, Phase::Read, b), (row, Phase::Write, b)];
        let all = self.floor.rows.keys().flat_map(|row| of(*row));
        all.filter(|(row, phase, b)| waits(&self.floor.rows[row], *phase, *b)).collect()
    }

    /// The answers of a box that are on the way.
    fn answers(&self, b: usize) -> Vec<Asked> {
        let of = |(row, a): (&usize, &Attempt)| on_the_way(a).into_iter().map(|(phase, from)| (*row, phase, from)).collect::<Vec<_>>();
        self.floor.rows.iter().flat_map(of).filter(|(_, _, from)| *from == b).collect()
    }

    fn course(&mut self, (row, phase, b): Asked) -> &mut Course {
        self.courses.entry((row, phase == Phase::Write, b)).or_default()
    }

    /// The requests of an attempt in a phase are issued.
    fn issued(&mut self, row: usize, phase: Phase) {
        for b in 0..self.boxes.len() {
            *self.course((row, phase, b)) = Course { issued_away: self.away(b), waited: self.away(b) as usize, went_behind: false };
        }
    }

    /// A box goes away: what is known of it, of its requests and answers, and of the attempts that are not over.
    fn went(&mut self, kind: u8, at: usize, waiting: &[Asked], answers: &[Asked]) {
        self.boxes[at].kinds.push(kind);
        for asked in waiting {
            self.course(*asked).waited += 1;
        }
        for asked in answers {
            self.course(*asked).went_behind = true;
        }
        let (q, answering) = (self.floor.quorum(), self.answering());
        (self.few, self.none) = (self.few || answering < q, self.none || answering == 0);
        for row in self.floor.rows.keys().copied().filter(|row| !self.floor.over(*row)) {
            self.absent.entry(row).or_default().insert(at);
            if answering < q {
                self.short.insert(row);
            }
        }
    }

    /// Kind 6 or 8.
    fn stop(&mut self, step: Step, kind: u8, at: usize) -> Lines {
        let said = self.floor.step(step);
        if said.is_err() {
            return self.not_put_away(kind, at, said.err());
        }
        let (waiting, answers) = (self.waiting(at), self.answers(at));
        self.went(kind, at, &waiting, &answers);
        let (was, past) = (&self.floor.boxes[at], &self.boxes[at]);
        let (q, answering) = (self.floor.quorum(), self.answering());
        let of = |phase: Phase, of: &[Asked]| of.iter().any(|(_, p, _)| *p == phase);
        let both = |asked: &[Asked]| DEPARTMENTS.iter().all(|d| asked.iter().any(|(row, _, _)| Department::of_row(*row) == *d));
        let busy = |state: State| matches!(state, State::Reading(_) | State::Writing(_));
        vec![
            ("by kind 6", kind == 6),
            ("by kind 8", kind == 8),
            ("twice", past.kinds.len() == 2),
            ("five times", past.kinds.len() == 5),
            ("by kind 6, then by kind 8", past.kinds.ends_with(&[6, 8])),
            ("by kind 8, then by kind 6", past.kinds.ends_with(&[8, 6])),
            ("before anything is begun", self.floor.rows.is_empty()),
            ("a read waits there", of(Phase::Read, &waiting)),
            ("a write waits there", of(Phase::Write, &waiting)),
            ("requests of both departments wait there", both(&waiting)),
            ("a read's answer is on the way", of(Phase::Read, &answers)),
            ("a write's answer is on the way", of(Phase::Write, &answers)),
            ("with a record of sails alone", was.sails.held.is_some() && was.canvas.held.is_none()),
            ("with a record of canvas alone", was.sails.held.is_none() && was.canvas.held.is_some()),
            ("with records of both departments", was.sails.held.is_some() && was.canvas.held.is_some()),
            ("with a read rank and nothing held", was.sails.held.is_none() && was.sails.read_rank > 0),
            ("fewer than q boxes answer", answering == q - 1),
            ("no box answers", answering == 0),
            ("a station reads or writes", self.floor.stations.iter().any(|s| busy(s.state))),
            ("no station reads or writes", !self.floor.rows.is_empty() && !self.floor.stations.iter().any(|s| busy(s.state))),
        ]
    }

    /// A stop that is turned back.
    fn not_put_away(&self, kind: u8, at: usize, refusal: Option<Refusal>) -> Lines {
        let by = self.boxes.get(at).and_then(|past| past.kinds.last().copied()).unwrap_or(0);
        let again = self.boxes.get(at).is_some_and(|past| past.returns > 0);
        vec![
            ("refusal 13 to kind 6, put away by kind 6", refusal == Some(13) && (kind, by) == (6, 6)),
            ("refusal 13 to kind 6, put away by kind 8", refusal == Some(13) && (kind, by) == (6, 8)),
            ("refusal 13 to kind 8, put away by kind 6", refusal == Some(13) && (kind, by) == (8, 6)),
            ("refusal 13 to kind 8, put away by kind 8", refusal == Some(13) && (kind, by) == (8, 8)),
            ("refusal 13 to kind 6 or 8, put away again", refusal == Some(13) && again),
            ("refusal  8 to kind 6", refusal == Some(8) && kind == 6),
            ("refusal  8 to kind 8", refusal == Some(8) && kind == 8),
        ]
    }

    /// Kind 9.
    fn back(&mut self, step: Step, at: usize) -> Lines {
        let was = self.answering();
        let said = self.floor.step(step);
        if let Err(refusal) = said {
            let past = self.boxes.get(at).cloned().unwrap_or_default();
            let others = self.answering() < self.boxes.len();
            return vec![
                ("refusal 23 at a box that never was away", refusal == 23 && past.kinds.is_empty()),
                ("refusal 23 after a return", refusal == 23 && past.returns == 1),
                ("refusal 23 after two returns", refusal == 23 && past.returns == 2),
                ("refusal 23 with no box away", refusal == 23 && !others),
                ("refusal 23, another box away", refusal == 23 && others),
                ("refusal  8 to kind 9", refusal == 8),
                ("refusal  8 to kind 9, the number of boxes", refusal == 8 && at == self.boxes.len()),
            ];
        }
        let (q, n, answering, waiting) = (self.floor.quorum(), self.boxes.len(), self.answering(), self.waiting(at));
        let (few, none) = (self.few, self.none);
        let past = &mut self.boxes[at];
        past.returns += 1;
        let storage = &self.floor.boxes[at];
        past.then = Some([storage.sails.clone(), storage.canvas.clone()]);
        let by = past.kinds.last().copied();
        let of = |phase: Phase| waiting.iter().any(|(_, p, _)| *p == phase);
        vec![
            ("back after kind 6", by == Some(6)),
            ("back after kind 8", by == Some(8)),
            ("back twice", past.returns == 2),
            ("back five times", past.returns == 5),
            ("back with a record of sails", storage.sails.held.is_some()),
            ("back with a record of canvas", storage.canvas.held.is_some()),
            ("back with no record", storage.sails.read_rank == 0 && storage.canvas.read_rank == 0),
            ("back, a read waits there", of(Phase::Read)),
            ("back, a write waits there", of(Phase::Write)),
            ("back, q boxes answer again", few && was == q - 1),
            ("back, all boxes answer again", answering == n),
            ("back, all boxes answer again after none did", answering == n && none),
        ]
    }

    fn begin(&mut self, step: Step, station: usize) -> Lines {
        let department = self.floor.stations.get(station).map_or(Department::Sails, |s| s.department);
        let (used, next) = (self.floor.used(department), self.floor.next_row(department));
        let (reads, writes) = self.kept_away(department);
        let rank = |row: &usize| self.floor.rows.get(row).map_or(u32::MAX, |a| a.rank);
        let smaller = |rows: &BTreeSet<usize>| next.is_some_and(|next| rows.iter().any(|row| rank(row) < rank(&next)));
        let (passed_read, passed_write) = (smaller(&reads), smaller(&writes));
        let again = next.is_some_and(|row| self.floor.rows.contains_key(&row));
        let caught_up = next.is_some_and(|row| self.late.contains(&row));
        let (some_away, few) = (self.answering() < self.boxes.len(), self.answering() < self.floor.quorum());
        let said = self.floor.step(step);
        if let Ok(Said::Begun(row)) = said {
            (self.late.remove(&row), self.short.remove(&row));
            self.absent.insert(row, (0..self.boxes.len()).filter(|b| self.away(*b)).collect());
            if few {
                self.short.insert(row);
            }
            self.issued(row, Phase::Read);
        }
        let (begun, full, sails) = (said.is_ok(), said == Err(12), department == Department::Sails);
        let kept = !reads.is_empty() || !writes.is_empty();
        vec![
            ("a begin, a box away", begun && some_away),
            ("a begin, fewer than q boxes answer", begun && few),
            ("refusal 12, a row kept by a read at a box that is away", full && !reads.is_empty()),
            ("refusal 12, a row kept by a write at a box that is away", full && !writes.is_empty()),
            ("refusal 12, every row that is over kept at a box that is away", full && kept && self.all_kept_away(department)),
            ("refusal 12 to sails, a row kept at a box that is away", full && sails && kept),
            ("refusal 12 to canvas, a row kept at a box that is away", full && !sails && kept),
            ("a row of a smaller rank kept by a read at a box that is away", begun && again && passed_read),
            ("a row of a smaller rank kept by a write at a box that is away", begun && again && passed_write),
            ("a row given back, a box away", begun && again && some_away),
            ("a row given back whose request waited at a box that was away", begun && again && caught_up),
            ("the 64th row used, a box away", begun && used == ROWS - 1 && some_away),
        ]
    }

    /// The rows of a department that are over and are kept by what waits at boxes that are away alone: by a read, and by a write.
    fn kept_away(&self, department: Department) -> (BTreeSet<usize>, BTreeSet<usize>) {
        let (mut reads, mut writes) = (BTreeSet::new(), BTreeSet::new());
        if self.floor.used(department) < ROWS || self.answering() == self.boxes.len() {
            return (reads, writes);
        }
        for row in department.rows().filter(|row| self.floor.over(*row) && !self.waits_answering(*row)) {
            let a = &self.floor.rows[&row];
            reads.extend(Some(row).filter(|_| a.reads.contains(&Request::Waiting)));
            writes.extend(Some(row).filter(|_| a.writes.contains(&Request::Waiting)));
        }
        (reads, writes)
    }

    /// Whether something of a row waits at a box that answers.
    fn waits_answering(&self, row: usize) -> bool {
        let a = &self.floor.rows[&row];
        (0..self.boxes.len()).any(|b| !self.away(b) && (waits(a, Phase::Read, b) || waits(a, Phase::Write, b)))
    }

    fn all_kept_away(&self, department: Department) -> bool {
        department.rows().all(|row| !self.floor.over(row) || !self.waits_answering(row))
    }

    fn serve(&mut self, step: Step, asked: Asked) -> Lines {
        let (row, phase, at) = asked;
        let department = Department::of_row(row);
        let waits = at < self.boxes.len() && self.floor.rows.get(&row).is_some_and(|a| waits(a, phase, at));
        let was = self.floor.boxes.get(at).map(|b| b.register(department).held);
        let said = self.floor.step(step);
        if said.is_err() {
            return self.not_served(asked, waits, said.err());
        }
        let course = *self.course(asked);
        if course.waited > 0 {
            self.late.insert(row);
        }
        let (read, write, waited) = (phase == Phase::Read, phase == Phase::Write, course.waited > 0);
        let a = &self.floor.rows[&row];
        let register = self.floor.boxes[at].register(department);
        // what the box held, and the read rank that it had, when it came back, where it has come back
        let then = self.boxes[at].then.as_ref().map(|then| &then[department as usize]);
        let held = then.and_then(|then| then.held);
        let kept = |found: Held| found.is_some() && found == held;
        let answer = if let Request::OnTheWay(answer) = a.reads[at] { Some(answer) } else { None };
        let found = if let (true, Some(Answer::Holds(found))) = (read, answer) { found } else { None };
        let outranked = read && answer == Some(Answer::Outranked);
        let taken = write && Some(register.held) != was;
        let by_then = then.is_some_and(|then| then.read_rank > a.rank);
        vec![
            ("a read that waited there is served after the return", read && waited),
            ("a write that waited there is served after the return", write && waited),
            ("a request that waited through two absences is served", course.waited > 1),
            ("a read begun while the box was away is served after the return", read && course.issued_away),
            ("a write issued while the box was away is served after the return", write && course.issued_away),
            ("what waited there is served after its attempt is over", waited && self.floor.over(row)),
            ("what waited there is served after its station is gone", waited && self.floor.stations[a.station].state == State::Gone),
            ("a read finds what the box held as it came back", kept(found)),
            ("a read finds a withdrawal that the box held as it came back", kept(found) && found.is_some_and(|(_, v)| v == 0)),
            ("a read of canvas finds what the box held as it came back", kept(found) && department == Department::Canvas),
            ("a read that waited there finds nothing", waited && read && answer == Some(Answer::Holds(None))),
            ("a read that waited there is outranked", waited && outranked),
            ("a read is outranked by the rank that the box came back with", outranked && by_then),
            ("a write that waited there is taken", waited && taken),
            ("a write that waited there is not taken", waited && write && !taken),
            ("a write is not taken for the rank that the box came back with", write && !taken && by_then),
            ("a revision is taken in the place of one that the box came back with", taken && was.is_some_and(kept)),
        ]
    }

    /// A serve that is turned back.
    fn not_served(&self, (row, phase, at): Asked, waits: bool, refusal: Option<Refusal>) -> Lines {
        let refused = refusal == Some(13);
        let by = self.boxes.get(at).and_then(|past| past.kinds.last().copied());
        let again = self.boxes.get(at).is_some_and(|past| past.returns > 0);
        let sails = Department::of_row(row) == Department::Sails;
        vec![
            ("refusal 13 to a serve, put away by kind 6", refused && by == Some(6)),
            ("refusal 13 to a serve, put away by kind 8", refused && by == Some(8)),
            ("refusal 13 to a serve, put away again", refused && again),
            ("refusal 13 to a serve of a read that waits", refused && waits && phase == Phase::Read),
            ("refusal 13 to a serve of a write that waits", refused && waits && phase == Phase::Write),
            ("refusal 13 to a serve of a request that does not wait", refused && !waits),
            ("refusal 13 to a serve of sails", refused && sails),
            ("refusal 13 to a serve of canvas", refused && !sails),
            ("refusal  8 to a serve at a box that is away", refusal == Some(8) && self.away(at)),
            ("refusal 14 to a serve at a box that came back", refusal == Some(14) && again && !self.away(at)),
        ]
    }

    fn deliver(&mut self, step: Step, asked: Asked) -> Lines {
        let (row, phase, from) = asked;
        let said = self.floor.step(step);
        let Ok(said) = said else {
            return vec![("refusal 14 to a delivery from a box that is away", said == Err(14) && self.away(from))];
        };
        let course = *self.course(asked);
        if let Said::WriteIssued(_) = said {
            self.issued(row, Phase::Write);
        }
        let a = &self.floor.rows[&row];
        let (away, few) = (self.away(from), self.answering() < self.floor.quorum());
        let absent = self.absent.get(&row).cloned().unwrap_or_default();
        let of_quorum = |b: &usize| a.writes[*b] == Request::Received(true);
        let course_of = |b: usize| self.courses.get(&(row, true, b)).copied().unwrap_or_default();
        let read_then_written = |b: &usize| of_quorum(b) && matches!(a.reads[*b], Request::Received(_)) && course_of(*b).waited > 0;
        let (decided, aborted) = (matches!(said, Said::Decided(_)), matches!(said, Said::Aborted(_)));
        vec![
            ("a read's answer is delivered while its box is away", away && phase == Phase::Read),
            ("a write's answer is delivered while its box is away", away && phase == Phase::Write),
            ("an answer is delivered after its box went and came back", course.went_behind && !away),
            ("a write is issued at an answer whose box is away", away && matches!(said, Said::WriteIssued(_))),
            ("a write is issued while fewer than q boxes answer", few && matches!(said, Said::WriteIssued(_))),
            ("an abort at an answer whose box is away", away && aborted),
            ("a decision at an answer whose box is away", away && decided),
            ("a decision while fewer than q boxes answer", few && decided),
            ("a decision after fewer than q boxes answered in the attempt", decided && self.short.contains(&row)),
            ("a decision, a box of its quorum was away in the attempt", decided && absent.iter().any(of_quorum)),
            ("a decision, a box of its quorum was read, away and written", decided && (0..self.boxes.len()).any(|b| read_then_written(&b))),
            ("a decision at the answer of a request that waited there", decided && course.waited > 0),
            ("a decision of sails, a box of its quorum was away", decided && row < ROWS && absent.iter().any(of_quorum)),
            ("a decision of canvas, a box of its quorum was away", decided && row >= ROWS && absent.iter().any(of_quorum)),
            ("an abort, a box was away in the attempt", aborted && !absent.is_empty()),
        ]
    }

    fn at_the_end(&self) -> Lines {
        let back = |past: &Past| past.returns > 0;
        let served = |d: &Department| self.late.iter().any(|row| Department::of_row(*row) == *d);
        vec![
            ("still at the end", self.answering() < self.boxes.len()),
            ("still at the end, come back before", (0..self.boxes.len()).any(|b| self.away(b) && back(&self.boxes[b]))),
            ("two boxes have come back", self.boxes.iter().filter(|past| back(past)).count() >= 2),
            ("a majority has come back", self.boxes.iter().filter(|past| back(past)).count() >= self.floor.quorum() && self.few),
            ("what waited there is served in both departments", DEPARTMENTS.iter().all(served)),
        ]
    }
}

/// Whether the request of an attempt waits at a box.
fn waits(a: &Attempt, phase: Phase, b: usize) -> bool {
    match phase {
        Phase::Read => a.reads[b] == Request::Waiting,
        Phase::Write => a.writes[b] == Request::Waiting,
    }
}
