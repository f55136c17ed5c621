//! A second implementation of the program `drill` and of the writer, written from documents 01 and 02 alone. As a program it reads a drill
//! file from standard input and prints what document 01 says. The comparisons in compare.rs and write.rs use it as a library; the first also
//! looks at the trace that it keeps.
#![allow(dead_code)]

use std::collections::BTreeMap;
use std::fmt::Write as _;
use std::io::{Read, Write as _};

/// The number of a refusal in document 01, "Turned back, in checking order".
pub type Refusal = u8;

/// Document 02, wish 6: the departments. A file says 0 for sails and 1 for canvas.
#[derive(Clone, Copy, Debug, PartialEq)]
pub enum Department {
    Sails,
    Canvas,
}

pub const DEPARTMENTS: [Department; 2] = [Department::Sails, Department::Canvas];

/// How many rows each department has.
pub const ROWS: usize = 64;

impl Department {
    /// The numbers of its rows: 0 to 63 are sails', 64 to 127 canvas'.
    pub fn rows(self) -> std::ops::Range<usize> {
        let first = if self == Department::Sails { 0 } else { 64 };
        first..first + ROWS
    }

    /// The department of the row of that number.
    pub fn of_row(row: usize) -> Department {
        if Department::Sails.rows().contains(&row) { Department::Sails } else { Department::Canvas }
    }
}

/// One record of a drill file.
#[derive(Clone, Copy, Debug, PartialEq)]
pub enum Step {
    Begin { station: usize, round: u32, revision: u32 },
    Serve { phase: Phase, attempt: usize, at: usize },
    Deliver { phase: Phase, attempt: usize, from: usize },
    /// kinds 6 and 8
    Stop { at: usize },
    /// kind 9
    Back { at: usize },
    Gone { station: usize },
}

#[derive(Clone, Copy, Debug, PartialEq)]
pub enum Phase {
    Read,
    Write,
}

/// What an accepted step says.
#[derive(Clone, Copy, Debug, PartialEq)]
pub enum Said {
    Begun(usize),
    Served(usize),
    Received(usize),
    WriteIssued(u32),
    Decided(u32),
    Aborted(usize),
    Stopped(usize),
    Back(usize),
    Gone(usize),
}

/// Where a request of an attempt at one box stands.
#[derive(Clone, Copy, Debug, PartialEq)]
pub enum Request<A> {
    NotIssued,
    Waiting,
    OnTheWay(A),
    Received(A),
}

/// A write that a box took: its rank and its revision, which may be 0. Document 02, wish 7: a box holds nothing exactly while its write
/// rank is 0, and no rank that is begun is 0.
pub type Held = Option<(u32, u32)>;

/// What a box answers to a read. Document 02, wish 2: what it holds, or that the read is outranked.
#[derive(Clone, Copy, Debug, PartialEq)]
pub enum Answer {
    Holds(Held),
    Outranked,
}

/// The record that a box keeps for one department.
#[derive(Clone, Debug, PartialEq)]
pub struct Register {
    pub read_rank: u32,
    pub held: Held,
}

#[derive(Clone, Debug)]
pub struct StorageBox {
    pub sails: Register,
    pub canvas: Register,
    /// Document 02, wish 8: a box that is away serves nothing and keeps its records.
    pub away: bool,
}

#[derive(Clone, Copy, Debug, PartialEq)]
pub enum State {
    Idle,
    Reading(usize),
    Writing(usize),
    Decided,
    Gone,
}

#[derive(Clone, Debug, PartialEq)]
pub struct Station {
    pub department: Department,
    pub state: State,
    pub last_round: u32,
    pub last_rank: u32,
    /// Document 02, wish 7: whether it decided, and what; 0 is a revision.
    pub decided: Option<u32>,
}

#[derive(Clone, Debug, PartialEq)]
pub struct Attempt {
    pub station: usize,
    pub rank: u32,
    pub offer: u32,
    pub written: Option<u32>,
    pub reads: Vec<Request<Answer>>,
    pub writes: Vec<Request<bool>>,
}

#[derive(Clone, Debug)]
pub struct Floor {
    pub boxes: Vec<StorageBox>,
    pub stations: Vec<Station>,
    /// The rows used so far by their numbers, each with the attempt that was begun in it last.
    pub rows: BTreeMap<usize, Attempt>,
}

impl Register {
    fn write_rank(&self) -> u32 {
        self.held.map_or(0, |(r, _)| r)
    }

    /// Document 02, wish 2: a box with a read or write rank above the rank answers "outranked" and changes nothing.
    pub fn outranks(&self, rank: u32) -> bool {
        self.read_rank > rank || self.write_rank() > rank
    }

    /// Figure 3, read: the read rank becomes the larger of itself and the rank.
    fn read(&mut self, rank: u32) -> Answer {
        if self.outranks(rank) {
            return Answer::Outranked;
        }
        self.read_rank = self.read_rank.max(rank);
        Answer::Holds(self.held)
    }

    /// Figure 3, write: taken if read rank ≤ rank and write rank < rank.
    fn write(&mut self, rank: u32, revision: u32) -> bool {
        let taken = self.read_rank <= rank && self.write_rank() < rank;
        if taken {
            self.held = Some((rank, revision));
        }
        taken
    }
}

impl StorageBox {
    pub fn register(&self, department: Department) -> &Register {
        if department == Department::Sails { &self.sails } else { &self.canvas }
    }

    fn register_mut(&mut self, department: Department) -> &mut Register {
        if department == Department::Sails { &mut self.sails } else { &mut self.canvas }
    }
}

impl Floor {
    /// A new floor of n boxes, with a station for each department named.
    pub fn new(n: usize, departments: &[Department]) -> Floor {
        let register = Register { read_rank: 0, held: None };
        let storage_box = StorageBox { sails: register.clone(), canvas: register, away: false };
        let station = |d: &Department| Station { department: *d, state: State::Idle, last_round: 0, last_rank: 0, decided: None };
        Floor { boxes: vec![storage_box; n], stations: departments.iter().map(station).collect(), rows: BTreeMap::new() }
    }

    /// How many of its rows a department has used.
    pub fn used(&self, department: Department) -> usize {
        self.rows.range(department.rows()).count()
    }

    /// q: n / 2 rounded down, plus 1.
    pub fn quorum(&self) -> usize {
        self.boxes.len() / 2 + 1
    }

    /// Document 02, wish 5: an attempt is over when its station no longer reads or writes in it.
    pub fn over(&self, row: usize) -> bool {
        let state = self.stations[self.rows[&row].station].state;
        state != State::Reading(row) && state != State::Writing(row)
    }

    /// Document 02, wishes 5 and 8: a row is free once its attempt is over and its issued requests are served at every box, away or not.
    pub fn free(&self, row: usize) -> bool {
        let attempt = &self.rows[&row];
        let waits = |b: usize| attempt.reads[b] == Request::Waiting || attempt.writes[b] == Request::Waiting;
        self.over(row) && (0..self.boxes.len()).all(|b| !waits(b))
    }

    /// Document 02, wishes 5 and 6: the row of its department that a begin takes: the next unused one. With all used it is the free one
    /// with the smallest rank, of equals the lowest.
    pub fn next_row(&self, department: Department) -> Option<usize> {
        let used = self.used(department);
        if used < ROWS {
            return Some(department.rows().start + used);
        }
        let mut next: Option<usize> = None;
        for (&row, attempt) in self.rows.range(department.rows()) {
            if self.free(row) && next.map_or(true, |other| attempt.rank < self.rows[&other].rank) {
                next = Some(row);
            }
        }
        next
    }

    pub fn step(&mut self, step: Step) -> Result<Said, Refusal> {
        match step {
            Step::Begin { station, round, revision } => self.begin(station, round, revision),
            Step::Serve { phase, attempt, at } => self.serve(phase, attempt, at),
            Step::Deliver { phase: Phase::Read, attempt, from } => self.deliver_read(attempt, from),
            Step::Deliver { phase: Phase::Write, attempt, from } => self.deliver_write(attempt, from),
            Step::Stop { at } => self.stop(at),
            Step::Back { at } => self.back(at),
            Step::Gone { station } => {
                let s = self.stations.get_mut(station).ok_or(8)?;
                if s.state == State::Gone {
                    return Err(9);
                }
                s.state = State::Gone;
                Ok(Said::Gone(station))
            }
        }
    }

    /// Document 02, wish 8: the box is away. Its records stay, and what waits there waits on.
    fn stop(&mut self, at: usize) -> Result<Said, Refusal> {
        let storage = self.boxes.get_mut(at).ok_or(8)?;
        if storage.away {
            return Err(13);
        }
        storage.away = true;
        Ok(Said::Stopped(at))
    }

    /// Document 02, wish 8: the box answers again, with the records it had.
    fn back(&mut self, at: usize) -> Result<Said, Refusal> {
        let storage = self.boxes.get_mut(at).ok_or(8)?;
        if !storage.away {
            return Err(23);
        }
        storage.away = false;
        Ok(Said::Back(at))
    }

    fn begin(&mut self, station: usize, round: u32, revision: u32) -> Result<Said, Refusal> {
        let s = self.stations.get(station).ok_or(8)?;
        match s.state {
            State::Gone => return Err(9),
            State::Reading(_) | State::Writing(_) | State::Decided => return Err(10),
            State::Idle => {}
        }
        // document 02, wish 7: whatever the revision
        if round == 0 || round <= s.last_round {
            return Err(11);
        }
        let number = self.next_row(s.department).ok_or(12)?;
        let rank = round * 16 + station as u32;
        let s = &mut self.stations[station];
        s.state = State::Reading(number);
        s.last_round = round;
        s.last_rank = rank;
        let n = self.boxes.len();
        let attempt = Attempt {
            station,
            rank,
            offer: revision,
            written: None,
            reads: vec![Request::Waiting; n],
            writes: vec![Request::NotIssued; n],
        };
        // what was in the row, answers on the way too, is dropped
        self.rows.insert(number, attempt);
        Ok(Said::Begun(number))
    }

    fn serve(&mut self, phase: Phase, number: usize, at: usize) -> Result<Said, Refusal> {
        let attempt = named(&mut self.rows, number)?;
        let b = self.boxes.get_mut(at).ok_or(8)?;
        if b.away {
            return Err(13);
        }
        let register = b.register_mut(Department::of_row(number));
        match phase {
            Phase::Read => {
                if attempt.reads[at] != Request::Waiting {
                    return Err(14);
                }
                attempt.reads[at] = Request::OnTheWay(register.read(attempt.rank));
            }
            Phase::Write => {
                if attempt.writes[at] != Request::Waiting {
                    return Err(14);
                }
                let revision = attempt.written.expect("a write that waits was issued");
                attempt.writes[at] = Request::OnTheWay(register.write(attempt.rank, revision));
            }
        }
        Ok(Said::Served(number))
    }

    fn deliver_read(&mut self, number: usize, from: usize) -> Result<Said, Refusal> {
        let q = self.quorum();
        let attempt = named(&mut self.rows, number)?;
        if from >= self.boxes.len() {
            return Err(8);
        }
        let station = &mut self.stations[attempt.station];
        if station.state == State::Gone {
            return Err(9);
        }
        let Request::OnTheWay(answer) = attempt.reads[from] else { return Err(14) };
        attempt.reads[from] = Request::Received(answer);
        let answers = received(&attempt.reads);
        if station.state != State::Reading(number) {
            return Ok(Said::Received(number));
        }
        if answers.contains(&Answer::Outranked) {
            station.state = State::Idle;
            return Ok(Said::Aborted(number));
        }
        if answers.len() != q {
            return Ok(Said::Received(number));
        }
        // the highest write rank among the q, of equals the lowest-numbered box's; an answer that holds nothing has rank 0
        let mut best: Held = None;
        for answer in answers {
            let Answer::Holds(held) = answer else { continue };
            if held.map_or(0, |(r, _)| r) > best.map_or(0, |(r, _)| r) {
                best = held;
            }
        }
        let revision = best.map_or(attempt.offer, |(_, v)| v);
        attempt.written = Some(revision);
        attempt.writes.fill(Request::Waiting);
        station.state = State::Writing(number);
        Ok(Said::WriteIssued(revision))
    }

    fn deliver_write(&mut self, number: usize, from: usize) -> Result<Said, Refusal> {
        let q = self.quorum();
        let attempt = named(&mut self.rows, number)?;
        if from >= self.boxes.len() {
            return Err(8);
        }
        let station = &mut self.stations[attempt.station];
        if station.state == State::Gone {
            return Err(9);
        }
        let Request::OnTheWay(answer) = attempt.writes[from] else { return Err(14) };
        attempt.writes[from] = Request::Received(answer);
        let answers = received(&attempt.writes);
        if station.state != State::Writing(number) || answers.len() != q {
            return Ok(Said::Received(number));
        }
        if answers.iter().all(|taken| *taken) {
            station.state = State::Decided;
            station.decided = attempt.written;
            Ok(Said::Decided(attempt.written.expect("its write was issued")))
        } else {
            station.state = State::Idle;
            Ok(Said::Aborted(number))
        }
    }
}

/// The attempt that a number means: the one begun last in that row of its department.
fn named(rows: &mut BTreeMap<usize, Attempt>, number: usize) -> Result<&mut Attempt, Refusal> {
    rows.get_mut(&number).ok_or(8)
}

/// The answers received so far, in order of the boxes.
fn received<A: Copy>(requests: &[Request<A>]) -> Vec<A> {
    requests.iter().filter_map(|r| if let Request::Received(a) = r { Some(*a) } else { None }).collect()
}

/// A record of 8 bytes as a step, or refusal 7.
pub fn decode(record: &[u8]) -> Result<Step, Refusal> {
    let zero = |from: usize| record[from..].iter().all(|b| *b == 0);
    let (one, two) = (record[1] as usize, record[2] as usize);
    let step = match record[0] {
        1 => Step::Begin {
            station: one,
            round: u16::from_be_bytes([record[2], record[3]]) as u32,
            revision: u32::from_be_bytes([record[4], record[5], record[6], record[7]]),
        },
        2 if zero(3) => Step::Serve { phase: Phase::Read, attempt: one, at: two },
        3 if zero(3) => Step::Serve { phase: Phase::Write, attempt: one, at: two },
        4 if zero(3) => Step::Deliver { phase: Phase::Read, attempt: one, from: two },
        5 if zero(3) => Step::Deliver { phase: Phase::Write, attempt: one, from: two },
        // document 02, wish 8: kind 6 is read as kind 8
        6 if zero(2) => Step::Stop { at: one },
        7 if zero(2) => Step::Gone { station: one },
        8 if zero(2) => Step::Stop { at: one },
        9 if zero(2) => Step::Back { at: one },
        _ => return Err(7),
    };
    Ok(step)
}

/// The parts of a file that is not refused before its records.
pub struct Parts<'a> {
    pub version: u8,
    pub n: usize,
    pub m: usize,
    pub label: &'a str,
    /// The department bytes: none in version 1.
    pub departments: &'a [u8],
    pub records: std::slice::Chunks<'a, u8>,
}

impl Parts<'_> {
    /// The department of each station: in version 1 all are sails.
    pub fn stations(&self) -> Vec<Department> {
        let department = |s: usize| if self.departments.get(s) == Some(&1) { Department::Canvas } else { Department::Sails };
        (0..self.m).map(department).collect()
    }
}

pub fn parts(file: &[u8]) -> Result<Parts<'_>, Refusal> {
    if file.len() < 6 || file.len() > 32_822 {
        return Err(1);
    }
    if u16::from_be_bytes([file[0], file[1]]) as usize != file.len() - 2 {
        return Err(1);
    }
    let version = file[2];
    if version != 1 && version != 2 {
        return Err(2);
    }
    let (n, m) = (file[3] as usize, file[4] as usize);
    if !(1..=9).contains(&n) || !(1..=16).contains(&m) {
        return Err(3);
    }
    let length = file[5] as usize;
    if !(1..=32).contains(&length) {
        return Err(4);
    }
    let label = file.get(6..6 + length).ok_or(4)?;
    if !label.iter().all(|b| (33..=126).contains(b)) {
        return Err(4);
    }
    let count = if version == 2 { m } else { 0 };
    let behind = &file[6 + length..];
    let departments = behind.get(..count).ok_or(22)?;
    if !departments.iter().all(|b| (0..=1).contains(b)) {
        return Err(22);
    }
    let rest = &behind[count..];
    if rest.len() % 8 != 0 || rest.len() / 8 > 4096 {
        return Err(5);
    }
    let label = std::str::from_utf8(label).expect("its bytes are 33 to 126");
    Ok(Parts { version, n, m, label, departments, records: rest.chunks(8) })
}

/// Document 02, wishes 1, 6 and 8: the file of these parts, for a buffer of that many bytes.
pub fn write(room: usize, version: u8, n: u8, m: u8, label: &[u8], departments: &[u8], records: &[u8]) -> Result<Vec<u8>, Refusal> {
    let mut file = vec![0, 0, version, n, m, label.len() as u8];
    file.extend(label);
    file.extend(departments);
    file.extend(records);
    let after = (file.len() - 2) as u16;
    file[..2].copy_from_slice(&after.to_be_bytes());
    let wanted = if version == 1 { 0 } else { m as usize };
    let turned_away = [
        (2, version < 1 || version > 2),
        (3, n < 1 || n > 9 || m < 1 || m > 16),
        (4, label.is_empty() || label.len() > 32 || label.iter().any(|b| *b < 33 || *b > 126)),
        (22, departments.len() != wanted || departments.iter().any(|d| *d > 1)),
        (5, records.len() % 8 != 0 || records.len() > 4096 * 8),
        (7, records.chunks(8).any(|record| record[0] == 6)),
        (18, room < file.len()),
    ];
    match turned_away.iter().find(|(_, applies)| *applies) {
        Some((refusal, _)) => Err(*refusal),
        None => Ok(file),
    }
}

/// What became of a file whose records were played.
pub struct Played {
    pub floor: Floor,
    /// The accepted steps, with what each of them said.
    pub trace: Vec<(Step, Said)>,
    pub refusal: Refusal,
}

pub fn play(parts: &Parts) -> Played {
    let mut floor = Floor::new(parts.n, &parts.stations());
    let mut trace = Vec::new();
    for record in parts.records.clone() {
        let said = decode(record).and_then(|step| floor.step(step).map(|said| (step, said)));
        match said {
            Ok(accepted) => trace.push(accepted),
            Err(refusal) => return Played { floor, trace, refusal },
        }
    }
    Played { floor, trace, refusal: 0 }
}

/// What the program prints.
pub fn report(file: &[u8]) -> String {
    match parts(file) {
        Err(refusal) => format!("end 0 {refusal}\n"),
        Ok(parts) => lines(&parts, &play(&parts)),
    }
}

pub fn lines(parts: &Parts, played: &Played) -> String {
    let mut out = String::new();
    writeln!(out, "panel {} boxes {} stations {}", parts.label, parts.n, parts.m).unwrap();
    for (number, s) in played.floor.stations.iter().enumerate() {
        let state = match s.state {
            State::Idle => "idle",
            State::Reading(_) => "reading",
            State::Writing(_) => "writing",
            State::Decided => "decided",
            State::Gone => "gone",
        };
        let decided = s.decided.map_or("none".to_string(), |revision| revision.to_string());
        writeln!(out, "station {number} {state} {} {decided}", s.last_rank).unwrap();
    }
    writeln!(out, "end {} {}", played.trace.len(), played.refusal).unwrap();
    out
}

fn main() {
    let mut file = Vec::new();
    std::io::stdin().read_to_end(&mut file).expect("standard input can be read");
    std::io::stdout().write_all(report(&file).as_bytes()).expect("standard output can be written");
}
