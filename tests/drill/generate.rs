//! Pseudo-random drill files from a seed, of both versions: long runs with much contention, runs of withdrawals beside revisions that are
//! cut, runs in which boxes go away and come back, runs through more attempts than there are rows, and damaged files of every kind; and
//! parts for the writer. The same seed and the same number always give the same.
#![allow(dead_code)]

use reference::{Attempt, Department, Floor, Phase, Register, Request, Said, State, Step, DEPARTMENTS, ROWS};

/// xorshift64*, so that the files depend on nothing but the seed.
pub struct Random(u64);

impl Random {
    pub fn new(seed: u64, number: u64) -> Random {
        // the state is odd, so never 0; each seed gives others
        let mut r = Random(seed.wrapping_mul(2) ^ number.wrapping_mul(0x9E37_79B9_7F4A_7C15) | 1);
        for _ in 0..8 {
            r.next();
        }
        r
    }

    fn next(&mut self) -> u64 {
        self.0 ^= self.0 >> 12;
        self.0 ^= self.0 << 25;
        self.0 ^= self.0 >> 27;
        self.0.wrapping_mul(0x2545_F491_4F6C_DD1D)
    }

    /// From 0 to n - 1.
    fn below(&mut self, n: usize) -> usize {
        ((self.next() >> 33) % n as u64) as usize
    }

    fn between(&mut self, low: usize, high: usize) -> usize {
        low + self.below(high - low + 1)
    }

    fn percent(&mut self, p: usize) -> bool {
        self.below(100) < p
    }

    fn pick<T: Copy>(&mut self, from: &[T]) -> T {
        from[self.below(from.len())]
    }
}

/// The file of that number.
pub fn file(seed: u64, number: u64) -> Vec<u8> {
    let r = &mut Random::new(seed, number);
    match number % 43 {
        0..=9 => run(r),
        10..=11 => at_few_boxes(r),
        12..=14 => damaged(r),
        15 => sized(r),
        16 => crowded(r),
        17..=18 => flipped(r),
        19 => wild_records(r),
        20 => noise(r),
        21..=22 => miscalled(r),
        23..=25 => withdrawals(r),
        26..=33 => absences(r),
        _ => given_back(r),
    }
}

/// What is handed to the writer: the buffer, the version, n, m, the label, the department bytes and the records.
pub struct Handed {
    pub buffer: Vec<u8>,
    pub version: u8,
    pub n: u8,
    pub m: u8,
    pub label: Vec<u8>,
    pub departments: Vec<u8>,
    pub records: Vec<u8>,
}

/// Parts and a buffer of that number: right ones, and such as are turned away for one reason or several.
pub fn handed(seed: u64, number: u64) -> Handed {
    let r = &mut Random::new(seed ^ 0x5712_77E4, number);
    let wrong = r.pick(&[0, 0, 10, 50]);
    let version = if r.percent(wrong) { r.pick(&[0, 3, 4, 128, 255]) } else { r.between(1, 2) };
    let n = if r.percent(wrong) { r.pick(&[0, 10, 11, 255]) } else { r.between(1, 9) };
    let m = if r.percent(wrong) { r.pick(&[0, 17, 18, 255]) } else { r.between(1, 16) };
    let length = if r.percent(wrong) { r.pick(&[0, 33, 34, 64, 255, 256, 257, 288, 65_537]) } else { r.between(1, 32) };
    let mut label = label(r, length);
    if length > 0 && r.percent(wrong) {
        let at = r.below(length);
        label[at] = r.pick(&[0, 9, 31, 32, 127, 128, 255]);
    }
    let mut departments = if version == 1 { Vec::new() } else { departments(r, m) };
    if r.percent(wrong) {
        miscount(r, &mut departments);
    }
    if !departments.is_empty() && r.percent(wrong) {
        let at = r.below(departments.len());
        departments[at] = no_department(r);
    }
    let whole = if r.percent(3) { r.pick(&[4095, 4096, 4097, 4098, 8192]) } else { r.below(12) };
    let odd = if r.percent(wrong) { r.between(1, 7) } else { 0 };
    let records = records_handed(r, whole, odd);
    let size = 6 + label.len() + departments.len() + records.len();
    let room = match r.below(10) {
        0..=3 => size,
        4 | 5 => size - 1,
        6 => size + 1,
        7 => size + r.below(40),
        8 => r.below(size),
        _ => r.below(12),
    };
    let buffer = (0..room).map(|_| r.below(256) as u8).collect();
    Handed { buffer, version: version as u8, n: n as u8, m: m as u8, label, departments, records }
}

/// So many whole records and bytes behind them. Some have the byte 6 in many places; it is the kind of none, or of one, of two or of all.
fn records_handed(r: &mut Random, whole: usize, odd: usize) -> Vec<u8> {
    let sixes = r.pick(&[0, 0, 50]);
    let mut records: Vec<u8> = (0..8 * whole + odd).map(|_| if r.percent(sixes) { 6 } else { r.below(256) as u8 }).collect();
    for kind in records.iter_mut().step_by(8).filter(|kind| **kind == 6) {
        *kind = r.pick(&[0, 5, 7, 8, 9, 10]);
    }
    let times = if whole == 0 { 0 } else { r.pick(&[0, 0, 0, 0, 0, 0, 0, 1, 1, 2, whole]) };
    for nth in 0..times {
        let any = r.below(whole);
        let at = if times == whole { nth } else { r.pick(&[0, whole - 1, any, any]) };
        records[8 * at] = 6;
    }
    if odd > 0 && r.percent(30) {
        records[8 * whole] = 6;
    }
    records
}

/// Other department bytes than a file of that version has: one or more too many, or too few.
fn miscount(r: &mut Random, departments: &mut Vec<u8>) {
    if departments.is_empty() || r.percent(50) {
        let more = r.pick(&[1, 1, 2, 8, 16]);
        departments.extend((0..more).map(|_| r.below(2) as u8));
    } else {
        let keep = r.pick(&[0, departments.len() - 1]);
        departments.truncate(keep);
    }
}

/// A byte that names no department.
fn no_department(r: &mut Random) -> u8 {
    r.pick(&[2, 2, 2, 3, 16, 48, 49, 128, 129, 254, 255])
}

pub fn encode(step: Step) -> [u8; 8] {
    let kind = |read, write, phase| if phase == Phase::Read { read } else { write };
    match step {
        Step::Begin { station, round, revision } => {
            let (o, v) = ((round as u16).to_be_bytes(), revision.to_be_bytes());
            [1, station as u8, o[0], o[1], v[0], v[1], v[2], v[3]]
        }
        Step::Serve { phase, attempt, at } => [kind(2, 3, phase), attempt as u8, at as u8, 0, 0, 0, 0, 0],
        Step::Deliver { phase, attempt, from } => [kind(4, 5, phase), attempt as u8, from as u8, 0, 0, 0, 0, 0],
        Step::Stop { at } => [8, at as u8, 0, 0, 0, 0, 0, 0],
        Step::Back { at } => [9, at as u8, 0, 0, 0, 0, 0, 0],
        Step::Gone { station } => [7, station as u8, 0, 0, 0, 0, 0, 0],
    }
}

/// What a file says beside its label and its records. Version 1 has no department bytes; those here are 0.
pub struct Head {
    pub version: u8,
    pub n: usize,
    pub departments: Vec<u8>,
}

impl Head {
    fn m(&self) -> usize {
        self.departments.len()
    }

    /// The new floor of such a file.
    fn floor(&self) -> Floor {
        let stations: Vec<Department> = self.departments.iter().map(|d| DEPARTMENTS[*d as usize]).collect();
        Floor::new(self.n, &stations)
    }

    /// Whether both departments have stations.
    fn both(&self) -> bool {
        self.departments.contains(&0) && self.departments.contains(&1)
    }
}

/// A file, its L set to what it should be (modulo 65,536 where it is too long for one). Boxes are put away by kind 8, by kind 6, or by both.
fn frame(r: &mut Random, head: &Head, label: &[u8], records: &[[u8; 8]]) -> Vec<u8> {
    let mut file = vec![0, 0, head.version, head.n as u8, head.m() as u8, label.len() as u8];
    file.extend_from_slice(label);
    if head.version == 2 {
        file.extend_from_slice(&head.departments);
    }
    let six = r.pick(&[0, 0, 50, 50, 50, 100]);
    for record in records {
        let kind = if record[0] == 8 && r.percent(six) { 6 } else { record[0] };
        file.push(kind);
        file.extend(&record[1..]);
    }
    sign(&mut file);
    file
}

/// Sets L to what it should be.
pub fn sign(file: &mut [u8]) {
    if file.len() >= 2 {
        let l = (file.len() - 2) as u16;
        file[..2].copy_from_slice(&l.to_be_bytes());
    }
}

/// The file of these records, with a label of any length.
fn named(r: &mut Random, head: &Head, records: &[[u8; 8]]) -> Vec<u8> {
    let length = r.between(1, 32);
    let name = label(r, length);
    frame(r, head, &name, records)
}

fn label(r: &mut Random, length: usize) -> Vec<u8> {
    (0..length).map(|_| r.between(33, 126) as u8).collect()
}

/// A department byte for each station: of one department alone, all but one station of it, in turn, or at random.
fn departments(r: &mut Random, m: usize) -> Vec<u8> {
    let one = r.below(2);
    let odd = match r.below(10) {
        0 => None,
        1 | 2 => Some(r.below(m.max(1))),
        3 | 4 => return (0..m).map(|s| ((s + one) % 2) as u8).collect(),
        _ => return (0..m).map(|_| r.below(2) as u8).collect(),
    };
    (0..m).map(|s| if Some(s) == odd { 1 - one } else { one } as u8).collect()
}

/// The head of a file of that version.
fn head_of(r: &mut Random, version: u8, n: usize, m: usize) -> Head {
    Head { version, n, departments: if version == 2 { departments(r, m) } else { vec![0; m] } }
}

fn version(r: &mut Random) -> u8 {
    if r.percent(55) { 2 } else { 1 }
}

/// How a run is driven: how often each kind of step is wanted, and how much the stations get in each other's way.
struct Habit {
    begin: usize,
    serve: [usize; 2],
    deliver: [usize; 2],
    stop: usize,
    back: usize,
    gone: usize,
    /// how often a write that the box would take is put off, in percent, while rows are unused
    late: usize,
    /// how often a read that the box would answer "outranked" is put off, in percent
    spared: usize,
    /// how often a begin does not outrank the others, in percent
    low: usize,
    /// how often an offer is a withdrawal, in percent
    withdrawn: usize,
    /// where requests are served at no more boxes than they need: a number that chooses the boxes, and the station from which on all begin
    /// in high rounds and read at one box alone
    few: Option<(u64, usize)>,
}

fn habit(r: &mut Random) -> Habit {
    let mut weight = |most| r.between(1, most);
    let (serve, deliver) = ([weight(12), weight(12)], [weight(12), weight(12)]);
    let begin = weight(12);
    let rough = r.percent(40);
    let (stop, back) = if rough { r.pick(&[(0, 0), (1, 0), (2, 0), (2, 30), (10, 100), (30, 300)]) } else { (0, 0) };
    Habit {
        begin,
        serve,
        deliver,
        stop,
        back,
        gone: if rough { r.below(3) } else { 0 },
        late: r.pick(&[0, 30, 80, 95, 100]),
        spared: r.pick(&[0, 0, 50, 90, 100]),
        low: r.pick(&[0, 0, 5, 40]),
        withdrawn: r.pick(&[0, 0, 10, 30, 50]),
        few: None,
    }
}

/// An offer; how often it is a withdrawal, revision 0, in percent.
fn revision(r: &mut Random, withdrawn: usize) -> u32 {
    if r.percent(withdrawn) {
        return 0;
    }
    match r.below(10) {
        0..=3 => r.between(1, 9) as u32,
        4 => u32::MAX,
        _ => (r.next() >> 32) as u32 | 1,
    }
}

/// A begin of one of these departments that the floor accepts; how often it does not outrank the others of its department, and how often it
/// is a withdrawal, in percent. The two departments so go through the same rounds.
fn begin(r: &mut Random, floor: &Floor, of: &[Department], low: usize, withdrawn: usize) -> Option<Step> {
    let of: Vec<Department> = of.iter().copied().filter(|d| floor.next_row(*d).is_some()).collect();
    let idle: Vec<usize> = (0..floor.stations.len())
        .filter(|s| floor.stations[*s].state == State::Idle && floor.stations[*s].last_round < 65_535)
        .filter(|s| of.contains(&floor.stations[*s].department))
        .collect();
    if idle.is_empty() {
        return None;
    }
    let station = r.pick(&idle);
    let department = floor.stations[station].department;
    let next = floor.stations[station].last_round + 1;
    let all = r.percent(10);
    let others = floor.stations.iter().filter(|s| all || s.department == department);
    let top = others.map(|s| s.last_round).max().unwrap_or(0) + 1;
    let round = if floor.used(department) < ROWS && r.below(400) == 0 {
        65_535
    } else if r.percent(low) {
        next
    } else if r.percent(5) {
        top.max(next) + r.below(300) as u32
    } else {
        top.max(next)
    };
    Some(Step::Begin { station, round: round.min(65_535), revision: revision(r, withdrawn) })
}

fn would_take(register: &Register, a: &Attempt) -> bool {
    register.read_rank <= a.rank && register.held.map_or(0, |x| x.0) < a.rank
}

/// Whether a request of an attempt is served at a box, where its read, and its write, is served at q boxes and no more.
fn asked(h: &Habit, floor: &Floor, a: &Attempt, phase: Phase, b: usize) -> bool {
    let Some((number, at_one)) = h.few else { return true };
    let n = floor.boxes.len();
    let first = Random::new(number, 2 * a.rank as u64 + phase as u64).below(n);
    let boxes = if a.station < at_one { floor.quorum() } else { 1 };
    (b + n - first) % n < boxes
}

/// A begin, in a higher round where the habit says so.
fn raised(h: &Habit, step: Step) -> Step {
    match (step, h.few) {
        (Step::Begin { station, round, revision }, Some((_, at_one))) if station >= at_one => {
            Step::Begin { station, round: (round + 1000).min(65_535), revision }
        }
        _ => step,
    }
}

/// A step that the floor accepts, of a kind that the habit favours.
fn accepted(r: &mut Random, floor: &Floor, h: &Habit) -> Option<Step> {
    let mut by_kind: [Vec<Step>; 6] = Default::default();
    let unused = DEPARTMENTS.map(|d| floor.used(d) < ROWS);
    for (&number, a) in &floor.rows {
        let department = Department::of_row(number);
        let gone = floor.stations[a.station].state == State::Gone;
        for (b, storage) in floor.boxes.iter().enumerate() {
            for (phase, waiting, on_the_way) in [
                (Phase::Read, a.reads[b] == Request::Waiting, matches!(a.reads[b], Request::OnTheWay(_))),
                (Phase::Write, a.writes[b] == Request::Waiting, matches!(a.writes[b], Request::OnTheWay(_))),
            ] {
                if waiting && !storage.away && asked(h, floor, a, phase, b) {
                    let register = storage.register(department);
                    let put_off = match phase {
                        Phase::Read => register.outranks(a.rank) && r.percent(h.spared),
                        Phase::Write => would_take(register, a) && unused[department as usize] && r.percent(h.late),
                    };
                    let kind = if put_off { 5 } else { phase as usize };
                    by_kind[kind].push(Step::Serve { phase, attempt: number, at: b });
                }
                if on_the_way && !gone {
                    by_kind[2 + phase as usize].push(Step::Deliver { phase, attempt: number, from: b });
                }
            }
        }
    }
    for (b, storage) in floor.boxes.iter().enumerate() {
        if r.below(300) < if storage.away { h.back } else { h.stop } {
            by_kind[4].push(if storage.away { Step::Back { at: b } } else { Step::Stop { at: b } });
        }
    }
    for (s, station) in floor.stations.iter().enumerate() {
        if station.state != State::Gone && r.below(300) < h.gone {
            by_kind[4].push(Step::Gone { station: s });
        }
    }
    let fresh = begin(r, floor, &DEPARTMENTS, h.low, h.withdrawn).map(|step| raised(h, step));
    let weights = [
        h.serve[0] * !by_kind[0].is_empty() as usize,
        h.serve[1] * !by_kind[1].is_empty() as usize,
        h.deliver[0] * !by_kind[2].is_empty() as usize,
        h.deliver[1] * !by_kind[3].is_empty() as usize,
        4 * !by_kind[4].is_empty() as usize,
        h.begin * fresh.is_some() as usize,
    ];
    let total: usize = weights.iter().sum();
    if total == 0 {
        // nothing is left but requests that were put off, and boxes that are away
        return if by_kind[5].is_empty() { returning(r, floor).filter(|_| h.back > 0) } else { Some(r.pick(&by_kind[5])) };
    }
    let mut at = r.below(total);
    for (kind, w) in weights.iter().enumerate() {
        if at < *w {
            return if kind == 5 { fresh } else { Some(r.pick(&by_kind[kind])) };
        }
        at -= w;
    }
    None
}

/// The boxes that are away, or those that answer.
fn boxes(floor: &Floor, away: bool) -> Vec<usize> {
    (0..floor.boxes.len()).filter(|b| floor.boxes[*b].away == away).collect()
}

/// A box that is away comes back.
fn returning(r: &mut Random, floor: &Floor) -> Option<Step> {
    let away = boxes(floor, true);
    if away.is_empty() { None } else { Some(Step::Back { at: r.pick(&away) }) }
}

/// The number of an attempt, begun or not: at the limits, or up to the first number of its department that is not used.
fn attempt_about(r: &mut Random, floor: &Floor) -> usize {
    let [sails, canvas] = DEPARTMENTS.map(|d| floor.used(d));
    if r.percent(20) {
        return r.pick(&[sails, 64 + canvas, 63, 64, 65, 127, 128, 255]);
    }
    let at = r.below(sails + canvas + 1);
    if canvas == 0 || at < sails { at } else { 64 + at - sails }
}

/// A step of any kind that may or may not be accepted, its numbers at and about the limits.
fn about(r: &mut Random, floor: &Floor) -> Step {
    let attempt = attempt_about(r, floor);
    let b = if r.percent(10) { r.pick(&[floor.boxes.len(), 9, 255]) } else { r.below(floor.boxes.len()) };
    let station = if r.percent(10) { r.pick(&[floor.stations.len(), 16, 255]) } else { r.below(floor.stations.len()) };
    let phase = if r.percent(50) { Phase::Read } else { Phase::Write };
    match r.below(8) {
        0 | 1 => {
            let last = floor.stations.get(station).map_or(0, |s| s.last_round);
            let round = r.pick(&[0, last, last + 1, last + 1, 65_535]).min(65_535);
            Step::Begin { station, round, revision: revision(r, 40) }
        }
        2 | 3 => Step::Serve { phase, attempt, at: b },
        4 => Step::Deliver { phase, attempt, from: b },
        5 => Step::Stop { at: b },
        6 => Step::Back { at: b },
        _ => Step::Gone { station },
    }
}

/// The departments that have no row for a begin.
fn full(floor: &Floor) -> Vec<Department> {
    DEPARTMENTS.into_iter().filter(|d| floor.next_row(*d).is_none()).collect()
}

/// A step that names an attempt not begun, at the limits of the departments' rows.
fn not_begun(r: &mut Random, floor: &Floor) -> Step {
    let attempt = r.pick(&[floor.used(Department::Sails), 64 + floor.used(Department::Canvas), 63, 64, 65, 127, 128, 129, 192, 255]);
    let (b, phase) = (r.below(floor.boxes.len()), if r.percent(50) { Phase::Read } else { Phase::Write });
    if r.percent(50) { Step::Serve { phase, attempt, at: b } } else { Step::Deliver { phase, attempt, from: b } }
}

/// A begin of a station that has decided a withdrawal, which refusal 9 or 10 turns back: the station is gone, or it is not. With no row for
/// a begin in some departments its station is of one of these.
fn begun_again(r: &mut Random, floor: &Floor, refusal: u8, full: &[Department]) -> Option<Step> {
    let state = match refusal {
        9 => State::Gone,
        10 => State::Decided,
        _ => return None,
    };
    let wanted = |s: &usize| floor.stations[*s].state == state && (full.is_empty() || full.contains(&floor.stations[*s].department));
    let stations: Vec<usize> = withdrew(floor).into_iter().filter(wanted).collect();
    if stations.is_empty() {
        return None;
    }
    let station = r.pick(&stations);
    let round = (floor.stations[station].last_round + 1).min(65_535);
    Some(Step::Begin { station, round, revision: revision(r, 50) })
}

/// The stations that have decided a withdrawal.
fn withdrew(floor: &Floor) -> Vec<usize> {
    (0..floor.stations.len()).filter(|s| floor.stations[*s].decided == Some(0)).collect()
}

/// A record that the floor turns back with that refusal, where there is one. With no row for a begin it is a begin of such a department or
/// of no station, if one can be so refused.
fn turned_back(r: &mut Random, floor: &Floor, refusal: u8) -> Option<[u8; 8]> {
    if refusal == 7 {
        let mut record = encode(about(r, floor));
        if r.percent(50) {
            record[0] = r.pick(&[0, 10, 10, 11, 128, 255]);
        } else {
            record = encode(loop {
                let step = about(r, floor);
                if !matches!(step, Step::Begin { .. }) {
                    break step;
                }
            });
            let first = if record[0] < 6 { 3 } else { 2 };
            record[r.between(first, 7)] = r.between(1, 255) as u8;
        }
        return Some(record);
    }
    let full = full(floor);
    if refusal == 12 && full.is_empty() {
        return None;
    }
    if let Some(step) = begun_again(r, floor, refusal, &full).filter(|_| r.percent(50)) {
        return Some(encode(step));
    }
    let beyond = refusal == 8 && r.percent(if full.is_empty() { 60 } else { 30 });
    let wanted = |step: &Step| match step {
        Step::Begin { station, .. } => full.is_empty() || floor.stations.get(*station).map_or(true, |s| full.contains(&s.department)),
        _ => full.is_empty() || refusal > 12 || beyond,
    };
    let mut trial = floor.clone();
    for _ in 0..400 {
        let step = if beyond { not_begun(r, floor) } else { about(r, floor) };
        if !wanted(&step) {
            continue;
        }
        match trial.step(step) {
            Err(given) if given == refusal => return Some(encode(step)),
            Err(_) => {}
            Ok(_) => trial = floor.clone(),
        }
    }
    None
}

/// A station that goes, more often than others one that has decided a withdrawal.
fn leaver(r: &mut Random, floor: &Floor) -> Step {
    let withdrew = withdrew(floor);
    let station = if withdrew.is_empty() || r.percent(50) { r.below(floor.stations.len()) } else { r.pick(&withdrew) };
    Step::Gone { station }
}

fn sizes(r: &mut Random) -> (usize, usize) {
    let n = r.between(1, 9);
    let m = if r.percent(30) { r.pick(&[1, 2, 16]) } else { r.between(1, 16) };
    (n, m)
}

fn head(r: &mut Random) -> Head {
    let ((n, m), version) = (sizes(r), version(r));
    head_of(r, version, n, m)
}

/// Steps that are all accepted, `most` at most, and the floor behind them.
fn accepted_steps(r: &mut Random, head: &Head, most: usize) -> (Vec<[u8; 8]>, Floor) {
    let h = habit(r);
    steps_by(r, &h, head, most)
}

fn steps_by(r: &mut Random, h: &Habit, head: &Head, most: usize) -> (Vec<[u8; 8]>, Floor) {
    let (mut floor, mut records) = (head.floor(), Vec::new());
    while records.len() < most {
        let Some(step) = accepted(r, &floor, h) else { break };
        floor.step(step).expect("the step was chosen because it is accepted");
        records.push(encode(step));
    }
    (records, floor)
}

/// A run that is accepted whole, or turned back at its last step or before.
fn run(r: &mut Random) -> Vec<u8> {
    let head = head(r);
    let most = r.pick(&[0, 5, 40, 150, 150, 400, 400, 800, 2400]);
    let (mut records, mut floor) = accepted_steps(r, &head, most);
    if r.percent(45) {
        let refusal = if !full(&floor).is_empty() && r.percent(70) { 12 } else { r.pick(&[7, 8, 9, 10, 11, 12, 13, 14, 23]) };
        // a station that is gone for refusal 9, a box that is away for refusal 13
        let first = match refusal {
            9 => Some(leaver(r, &floor)),
            13 => Some(Step::Stop { at: r.below(head.n) }),
            _ => None,
        };
        if let Some(step) = first {
            tried(&mut floor, &mut records, step);
        }
        let record = turned_back(r, &floor, refusal);
        refused_last(r, &floor, &mut records, record);
    }
    named(r, &head, &records)
}

/// A short run of few stations, whose requests are served at q boxes and no more. In half of these the last stations of each department read
/// at one box alone, in high rounds: they outrank the others there and nowhere else.
fn at_few_boxes(r: &mut Random) -> Vec<u8> {
    let (n, version) = (r.pick(&[3, 3, 3, 3, 4, 5]), version(r) as usize);
    let (others, at_one) = (r.between(3, 5), r.pick(&[0, 0, 0, 1, 1, 2]));
    let departments: Vec<u8> = (0..version * (others + at_one)).map(|s| (s % version) as u8).collect();
    let head = Head { version: version as u8, n, departments };
    let few = Some((r.next(), version * others));
    let (begin, late, low) = if at_one > 0 { (1, 0, 100) } else { (4, r.pick(&[0, 60]), 0) };
    let h = Habit { begin, late, spared: 0, low, stop: 0, back: 0, gone: 0, few, ..habit(r) };
    let (records, _) = steps_by(r, &h, &head, 60 * head.m());
    named(r, &head, &records)
}

/// A short run in which many offers are withdrawals. It starts with a contest in each department, or in none. Then attempts are driven at
/// some boxes, one behind the other, and left for a while or for good: behind a begin, the reads, or a write at too few boxes. So the boxes
/// hold withdrawals and revisions of several ranks, which are found, outranked and written over. A station that has decided may go, and a
/// last record may be turned back.
fn withdrawals(r: &mut Random) -> Vec<u8> {
    let (n, version) = (r.pick(&[1, 2, 3, 3, 3, 3, 3, 4, 5, 5, 7]), version(r) as usize);
    let departments: Vec<u8> = (0..version * r.between(3, 5)).map(|s| (s % version) as u8).collect();
    let head = Head { version: version as u8, n, departments };
    let (low, withdrawn, gone) = (r.pick(&[0, 0, 30, 60]), r.pick(&[30, 50, 80]), r.pick(&[0, 3, 10]));
    let (mut floor, mut records) = (head.floor(), Vec::new());
    if r.percent(65) {
        contests(r, &mut floor, &mut records, version);
    }
    for _ in 0..version * r.between(1, 16) {
        if r.percent(gone) {
            let step = leaver(r, &floor);
            tried(&mut floor, &mut records, step);
        }
        let row = match begin(r, &floor, &DEPARTMENTS, low, withdrawn).filter(|_| r.percent(40)) {
            Some(step) => {
                let Ok(Said::Begun(row)) = floor.step(step) else { continue };
                records.push(encode(step));
                Some(row)
            }
            None => left_open(r, &floor),
        };
        let Some(row) = row else { continue };
        for phase in [Phase::Read, Phase::Write].into_iter().take(r.below(3)) {
            let (first, boxes) = (r.below(n), r.pick(&[1, 1, floor.quorum(), floor.quorum(), floor.quorum(), n]));
            drive(&mut floor, &mut records, row, phase, first, boxes);
        }
    }
    if r.percent(60) {
        let refusal = r.pick(&[8, 9, 9, 9, 10, 10, 11, 11, 14]);
        let record = turned_back(r, &floor, refusal);
        refused_last(r, &floor, &mut records, record);
    }
    named(r, &head, &records)
}

/// What is done in a contest: the next attempt of its department is begun, or a request of one, by its number in the contest, is served and
/// answered at so many boxes from one on.
#[derive(Clone, Copy)]
enum Act {
    Begin { revision: u32 },
    Drive { by: usize, phase: Phase, first: usize, boxes: usize },
}

/// Three attempts of one department: a withdrawal and a revision to cut, in either order, and a third. The first is left behind its reads,
/// or with its write at fewer boxes than q. The second outranks it, mostly at other boxes, and writes; where the first has not written it
/// does so behind that. The third finds what they left.
fn contest(r: &mut Random, n: usize) -> Vec<Act> {
    let (q, at) = (n / 2 + 1, r.below(n));
    let elsewhere = |r: &mut Random| if r.percent(75) { (at + 1) % n } else { r.below(n) };
    let drive = |by, phase, first, boxes| Act::Drive { by, phase, first, boxes };
    let cut = revision(r, 0);
    let (one, other) = if r.percent(50) { (0, cut) } else { (cut, 0) };
    let early = r.percent(50);
    let mut acts = vec![Act::Begin { revision: one }, drive(0, Phase::Read, at, q)];
    if early {
        acts.push(drive(0, Phase::Write, at, r.below(q)));
    }
    acts.extend([Act::Begin { revision: other }, drive(1, Phase::Read, elsewhere(r), q)]);
    let first = if early { elsewhere(r) } else { r.below(n) };
    acts.push(drive(1, Phase::Write, first, q));
    if !early {
        acts.push(drive(0, Phase::Write, at, r.pick(&[1, q, n])));
    }
    acts.push(Act::Begin { revision: revision(r, 50) });
    acts.extend([Phase::Read, Phase::Write].map(|phase| drive(2, phase, r.below(n), q)));
    acts
}

/// A contest in each department, the acts of the two in any order.
fn contests(r: &mut Random, floor: &mut Floor, records: &mut Vec<[u8; 8]>, departments: usize) {
    let mut acts: Vec<_> = (0..departments).map(|_| contest(r, floor.boxes.len()).into_iter()).collect();
    let mut rows: [Vec<usize>; 2] = Default::default();
    while acts.iter().any(|left| left.len() > 0) {
        let d = r.below(departments);
        match acts[d].next() {
            Some(Act::Begin { revision }) => {
                // the stations of the departments stand in turn; each begins a round above the one before
                let (station, round) = (rows[d].len() * departments + d, rows[d].len() as u32 + 1);
                let step = Step::Begin { station, round, revision };
                let Ok(Said::Begun(row)) = floor.step(step) else { return };
                records.push(encode(step));
                rows[d].push(row);
            }
            Some(Act::Drive { by, phase, first, boxes }) => drive(floor, records, rows[d][by], phase, first, boxes),
            None => {}
        }
    }
}

/// A short run in which boxes go away and come back, some again and again, between the steps of attempts: few of them, a majority, or all.
/// Attempts are driven at some boxes and left for a while; requests are served and their answers left on the way. What waited at a box that
/// comes back is mostly served then. A last record may be turned back.
fn absences(r: &mut Random) -> Vec<u8> {
    let (n, version) = (r.pick(&[1, 2, 3, 3, 3, 3, 3, 4, 5, 5, 7, 9]), version(r) as usize);
    let departments: Vec<u8> = (0..version * r.between(2, 5)).map(|s| (s % version) as u8).collect();
    let head = Head { version: version as u8, n, departments };
    let (low, withdrawn, gone) = (r.pick(&[0, 0, 30, 60]), r.pick(&[0, 20]), r.pick(&[0, 0, 3]));
    let (away, back) = r.pick(&[(30, 30), (15, 30), (40, 15), (10, 60), (60, 60)]);
    let (mut floor, mut records) = (head.floor(), Vec::new());
    for _ in 0..version * r.between(2, 24) {
        if r.percent(gone) {
            let step = leaver(r, &floor);
            tried(&mut floor, &mut records, step);
        }
        if r.percent(away) {
            put_away(r, &mut floor, &mut records);
        }
        if let Some(step) = begin(r, &floor, &DEPARTMENTS, low, withdrawn).filter(|_| r.percent(30)) {
            tried(&mut floor, &mut records, step);
        }
        in_part(r, &mut floor, &mut records);
        if r.percent(back) {
            bring_back(r, &mut floor, &mut records);
        }
    }
    if r.percent(85) {
        let refusal = r.pick(&[7, 7, 7, 8, 8, 8, 13, 13, 13, 13, 13, 23, 23, 23, 14, 10]);
        let record = if r.percent(70) { turned_back_box(r, &floor, refusal) } else { None };
        let record = record.or_else(|| turned_back(r, &floor, refusal));
        refused_last(r, &floor, &mut records, record);
    }
    named(r, &head, &records)
}

/// A record that the floor turns back with that refusal, where there is one: it puts a box away, brings one back, or serves at one that is
/// away, for 13 what waits there and for 8 a request of an attempt not begun.
fn turned_back_box(r: &mut Random, floor: &Floor, refusal: u8) -> Option<[u8; 8]> {
    for _ in 0..40 {
        let step = of_box(r, floor, if refusal == 8 { 100 } else { 15 });
        if refusal == 7 {
            // most of these would be turned back for another cause too
            if r.percent(70) && floor.clone().step(step).is_ok() {
                continue;
            }
            let mut record = encode(step);
            let any = r.between(2, 7);
            record[r.pick(&[0, 0, 2, 7, any])] = r.pick(&[10, 128, 255]);
            return Some(record);
        }
        let serve = if r.percent(50) { serve_away(r, floor, refusal) } else { None };
        let step = serve.unwrap_or(step);
        if floor.clone().step(step) == Err(refusal) {
            return Some(encode(step));
        }
    }
    None
}

/// A step that puts a box away or brings one back; how often it names no box, in percent.
fn of_box(r: &mut Random, floor: &Floor, beyond: usize) -> Step {
    let n = floor.boxes.len();
    let at = if r.percent(beyond) { r.pick(&[n, n, 9, 16, 128, 255]) } else { r.below(n) };
    if r.percent(50) { Step::Stop { at } } else { Step::Back { at } }
}

/// A serve at a box that is away: of a read or a write that waits there, for refusal 13, or of an attempt not begun, for refusal 8.
fn serve_away(r: &mut Random, floor: &Floor, refusal: u8) -> Option<Step> {
    let phase = if r.percent(50) { Phase::Read } else { Phase::Write };
    let waits = |a: &Attempt, b: usize| match phase {
        Phase::Read => a.reads[b] == Request::Waiting,
        Phase::Write => a.writes[b] == Request::Waiting,
    };
    let mut serves: Vec<Step> = Vec::new();
    for at in boxes(floor, true) {
        let named: Vec<usize> = match refusal {
            8 => DEPARTMENTS.map(|d| d.rows().start + floor.used(d)).to_vec(),
            _ => floor.rows.iter().filter(|(_, a)| waits(a, at)).map(|(row, _)| *row).collect(),
        };
        serves.extend(named.into_iter().map(|attempt| Step::Serve { phase, attempt, at }));
    }
    if serves.is_empty() { None } else { Some(r.pick(&serves)) }
}

/// Puts boxes away: one, so many that fewer than q answer, or all.
fn put_away(r: &mut Random, floor: &mut Floor, records: &mut Vec<[u8; 8]>) {
    let answering = boxes(floor, false);
    let majority = (answering.len() + 1).saturating_sub(floor.quorum());
    let times = match r.below(12) {
        0 | 1 => majority,
        2 => answering.len(),
        _ => 1,
    };
    let first = r.below(answering.len().max(1));
    for at in answering.iter().cycle().skip(first).take(times.min(answering.len())) {
        tried(floor, records, Step::Stop { at: *at });
    }
}

/// Brings boxes back, one or all. What waits there of the attempts is served, for some of these, and the answer delivered, for some.
fn bring_back(r: &mut Random, floor: &mut Floor, records: &mut Vec<[u8; 8]>) {
    let away = boxes(floor, true);
    let (first, times) = (r.below(away.len().max(1)), r.pick(&[1, 1, 1, away.len()]));
    let served = r.pick(&[0, 50, 90, 100]);
    for at in away.iter().cycle().skip(first).take(times.min(away.len())) {
        tried(floor, records, Step::Back { at: *at });
        if r.percent(10) {
            tried(floor, records, Step::Stop { at: *at });
        }
        for row in floor.rows.keys().copied().collect::<Vec<_>>() {
            for phase in [Phase::Read, Phase::Write] {
                let step = Step::Serve { phase, attempt: row, at: *at };
                if r.percent(served) && tried(floor, records, step) && r.percent(80) {
                    tried(floor, records, Step::Deliver { phase, attempt: row, from: *at });
                }
            }
        }
    }
}

/// Serves a request of an attempt that is not over at some boxes, or delivers its answers from some, or both.
fn in_part(r: &mut Random, floor: &mut Floor, records: &mut Vec<[u8; 8]>) {
    let Some(row) = left_open(r, floor) else { return };
    let (n, q) = (floor.boxes.len(), floor.quorum());
    let phase = if matches!(floor.stations[floor.rows[&row].station].state, State::Writing(_)) { Phase::Write } else { Phase::Read };
    let (first, boxes) = (r.below(n), r.pick(&[1, 1, q, q, n]));
    let (serve, deliver) = r.pick(&[(true, true), (true, true), (true, false), (false, true)]);
    for b in (first..n).chain(0..first).take(boxes) {
        if serve {
            tried(floor, records, Step::Serve { phase, attempt: row, at: b });
        }
        if deliver {
            tried(floor, records, Step::Deliver { phase, attempt: row, from: b });
        }
    }
}

/// The row of an attempt whose station reads or writes in it.
fn left_open(r: &mut Random, floor: &Floor) -> Option<usize> {
    let open: Vec<usize> = floor.rows.keys().copied().filter(|row| !floor.over(*row)).collect();
    if open.is_empty() { None } else { Some(r.pick(&open)) }
}

/// A step, where the floor accepts it.
fn tried(floor: &mut Floor, records: &mut Vec<[u8; 8]>, step: Step) -> bool {
    let accepted = floor.step(step).is_ok();
    if accepted {
        records.push(encode(step));
    }
    accepted
}

/// Serves a request of an attempt and delivers the answer at so many boxes from one on, one behind the other, where these are accepted.
fn drive(floor: &mut Floor, records: &mut Vec<[u8; 8]>, row: usize, phase: Phase, first: usize, boxes: usize) {
    let n = floor.boxes.len();
    for b in (first..n).chain(0..first).take(boxes) {
        for step in [Step::Serve { phase, attempt: row, at: b }, Step::Deliver { phase, attempt: row, from: b }] {
            tried(floor, records, step);
        }
    }
}

/// Puts a record that is turned back, if there is one, behind the others, and more behind it.
fn refused_last(r: &mut Random, floor: &Floor, records: &mut Vec<[u8; 8]>, record: Option<[u8; 8]>) {
    if let Some(record) = record {
        records.push(record);
        more(r, floor, records);
    }
}

/// Some records behind one that is turned back, now and then as many as a file may have.
fn more(r: &mut Random, floor: &Floor, records: &mut Vec<[u8; 8]>) {
    for _ in 0..r.below(20) {
        records.push(encode(about(r, floor)));
    }
    if r.percent(4) {
        while records.len() < 4096 {
            records.push(encode(about(r, floor)));
        }
    }
}

/// How a run of one department through more attempts than rows is driven. At most 16 rows are those of stations that read or write, so that
/// with all 64 used none is free only where requests of attempts that are over are left waiting; with one box there are none such but
/// those of stations gone.
struct Wear {
    /// how often each is wanted: a begin, a step of an attempt that is not over, a late serve, a late delivery
    wanted: [usize; 4],
    /// how often a begin does not outrank the others, in percent
    low: usize,
    /// how often an offer is a withdrawal, in percent
    withdrawn: usize,
    /// how often a write that the box would take is put off, in percent
    late: usize,
    /// how often the requests of an attempt are served as soon as it is over, in percent
    cleared: usize,
    /// how often one of them, or what waits at this box, is left waiting then, in percent
    but_one: usize,
    but_at: Option<usize>,
    /// in a thousand steps, of either department
    stop: usize,
    back: usize,
    gone: usize,
    /// how often what waits at a box that comes back, of an attempt that is over, is served then, in percent
    caught_up: usize,
}

/// How a run is driven in each department, how often a step of sails is wanted, and how often a box is away from the start, in percent.
struct Shared {
    wear: [Wear; 2],
    sails: usize,
    away: usize,
}

impl Shared {
    fn of(&self, department: Department) -> &Wear {
        &self.wear[department as usize]
    }
}

/// One department may be left alone, or nearly so.
fn shared(r: &mut Random, head: &Head, wear: [Wear; 2], away: usize) -> Shared {
    let sails = match head.both() {
        true => r.pick(&[50, 50, 50, 50, 50, 50, 40, 60, 3, 97, 0, 100]),
        false => 100 * head.departments.contains(&0) as usize,
    };
    Shared { wear, sails, away }
}

fn wear(r: &mut Random, n: usize, m: usize) -> Wear {
    // most of the rows are free, few, or none
    let (served, cleared, but_one) = match r.below(5) {
        0 => (r.pick(&[0, 1, 3]), r.pick(&[90, 100]), r.pick(&[0, 0, 5])),
        1 | 2 => (r.pick(&[0, 1, 3]), r.pick(&[60, 90, 100]), r.pick(&[60, 95])),
        _ => (r.pick(&[0, 0, 0, 1]), r.pick(&[0, 0, 50, 100]), 100),
    };
    let rough = r.percent(50);
    Wear {
        wanted: [r.between(2, 8), r.between(4, 16), served, r.pick(&[0, 1, 2])],
        low: r.pick(&[0, 10, 50, 90]),
        withdrawn: r.pick(&[0, 10, 30, 60]),
        late: r.pick(&[100, 100, 99, 99, 97, 90]),
        cleared,
        but_one,
        but_at: if r.percent(50) { Some(r.below(n)) } else { None },
        stop: if rough { r.below(6) } else { 0 },
        back: r.pick(&[0, 2, 5, 20, 100]),
        gone: if rough { r.below(1 + m / 2) } else { 0 },
        caught_up: r.pick(&[0, 60, 95, 100]),
    }
}

/// As many attempts as fit into a file: each is soon over and its row free at once, but for what waits at a box that is away.
fn brisk(r: &mut Random, back: usize) -> Wear {
    let (low, withdrawn) = (r.pick(&[0, 50, 90]), r.pick(&[0, 50]));
    let (wanted, stop, gone, caught_up) = ([6, 8, 0, 0], 0, 0, r.pick(&[50, 90, 100]));
    Wear { wanted, low, withdrawn, late: 100, cleared: 100, but_one: 0, but_at: None, stop, back, gone, caught_up }
}

/// The serves of an attempt that the floor accepts.
fn serves(floor: &Floor, row: usize) -> Vec<Step> {
    let a = &floor.rows[&row];
    let mut steps = Vec::new();
    for at in boxes(floor, false) {
        if a.reads[at] == Request::Waiting {
            steps.push(Step::Serve { phase: Phase::Read, attempt: row, at });
        }
        if a.writes[at] == Request::Waiting {
            steps.push(Step::Serve { phase: Phase::Write, attempt: row, at });
        }
    }
    steps
}

/// The answers of an attempt that are on the way.
pub fn on_the_way(a: &Attempt) -> Vec<(Phase, usize)> {
    let mut answers = Vec::new();
    for b in 0..a.reads.len() {
        if matches!(a.reads[b], Request::OnTheWay(_)) {
            answers.push((Phase::Read, b));
        }
        if matches!(a.writes[b], Request::OnTheWay(_)) {
            answers.push((Phase::Write, b));
        }
    }
    answers
}

/// A step of an attempt in the phase that its station is in. Writes that a box would take are put off, unless nothing else is left to do.
fn in_phase(r: &mut Random, floor: &Floor, w: &Wear, row: usize, phase: Phase, pressed: bool) -> Option<Step> {
    let (a, n, department) = (&floor.rows[&row], floor.boxes.len(), Department::of_row(row));
    let (first, deliver) = (r.below(n), r.percent(60));
    let put_off = phase == Phase::Write && !pressed && r.percent(w.late);
    for kind in [deliver, !deliver] {
        for b in (first..n).chain(0..first) {
            let (waiting, answered) = match phase {
                Phase::Read => (a.reads[b] == Request::Waiting, matches!(a.reads[b], Request::OnTheWay(_))),
                Phase::Write => (a.writes[b] == Request::Waiting, matches!(a.writes[b], Request::OnTheWay(_))),
            };
            if kind && answered {
                return Some(Step::Deliver { phase, attempt: row, from: b });
            }
            let storage = &floor.boxes[b];
            if !kind && waiting && !storage.away && !(put_off && would_take(storage.register(department), a)) {
                return Some(Step::Serve { phase, attempt: row, at: b });
            }
        }
    }
    None
}

/// A step that the floor accepts, found at a few places only.
fn worn(r: &mut Random, floor: &Floor, shared: &Shared, pressed: bool) -> Option<Step> {
    let department = if r.percent(shared.sails) { Department::Sails } else { Department::Canvas };
    let w = shared.of(department);
    if r.below(1000) < w.stop {
        let (at, answering) = (r.below(floor.boxes.len()), boxes(floor, false).len());
        let spared = answering <= floor.quorum() && r.percent(80);
        return Some(Step::Stop { at }).filter(|_| !floor.boxes[at].away && !spared);
    }
    if r.below(1000) < w.back {
        return returning(r, floor);
    }
    if r.below(1000) < w.gone {
        let station = r.below(floor.stations.len());
        return Some(Step::Gone { station }).filter(|_| floor.stations[station].state != State::Gone);
    }
    let mut at = r.below(w.wanted.iter().sum());
    let mut kind = 0;
    while at >= w.wanted[kind] {
        at -= w.wanted[kind];
        kind += 1;
    }
    if kind == 0 {
        return begin(r, floor, &[department], w.low, w.withdrawn);
    }
    if kind == 1 {
        let busy: Vec<(usize, Phase)> = floor
            .stations
            .iter()
            .filter(|s| s.department == department)
            .filter_map(|s| match s.state {
                State::Reading(row) => Some((row, Phase::Read)),
                State::Writing(row) => Some((row, Phase::Write)),
                _ => None,
            })
            .collect();
        if busy.is_empty() {
            return None;
        }
        let (row, phase) = r.pick(&busy);
        return in_phase(r, floor, w, row, phase, pressed);
    }
    let used = floor.used(department);
    for _ in 0..8.min(used) {
        let row = department.rows().start + r.below(used);
        let gone = floor.stations[floor.rows[&row].station].state == State::Gone;
        if !floor.over(row) || (kind == 3 && gone) {
            continue;
        }
        let late: Vec<Step> = match kind {
            2 => serves(floor, row),
            _ => on_the_way(&floor.rows[&row]).iter().map(|(phase, b)| Step::Deliver { phase: *phase, attempt: row, from: *b }).collect(),
        };
        if !late.is_empty() {
            return Some(r.pick(&late));
        }
    }
    None
}

/// A row given back at a run's last begin, and the answers of the attempt before that it dropped.
type Dropped = (usize, Vec<(Phase, usize)>);

/// Steps that are all accepted, `most` at most, and the floor behind them. In some of the runs no write is put off towards the end, in some
/// a box is away from the start, and some end at a begin that drops the answer to a write: the one of that number.
fn worn_steps(r: &mut Random, shared: &Shared, head: &Head, most: usize, last: usize) -> (Vec<[u8; 8]>, Floor, Option<Dropped>) {
    let (mut floor, mut records) = (head.floor(), Vec::new());
    if head.n > 2 && r.percent(shared.away) {
        let at = r.below(head.n);
        tried(&mut floor, &mut records, Step::Stop { at });
    }
    let early = most - r.pick(&[0, 10, 20, 40]) * head.n;
    let (mut tried, mut drops) = (0, 0);
    while records.len() < most && tried < 60 {
        tried += 1;
        let step = if tried > 30 { returns(r, &floor, shared) } else { None };
        let Some(step) = step.or_else(|| worn(r, &floor, shared, tried > 30 || records.len() > early)) else { continue };
        tried = 0;
        let dropped = dropped(&floor, step);
        let state = if let Step::Gone { station } = step { floor.stations[station].state } else { State::Idle };
        let said = floor.step(step).expect("the step was chosen because it is accepted");
        records.push(encode(step));
        if let Some((row, answers)) = dropped.filter(|(_, answers)| answers.iter().any(|(phase, _)| *phase == Phase::Write)) {
            drops += 1;
            if drops == last {
                return (records, floor, Some((row, answers)));
            }
        }
        let ended = match (step, said, state) {
            (Step::Deliver { attempt, .. }, Said::Aborted(_) | Said::Decided(_), _) => Some(attempt),
            (_, _, State::Reading(row) | State::Writing(row)) => Some(row),
            _ => None,
        };
        if let Some(row) = ended {
            clear(r, shared.of(Department::of_row(row)), &mut floor, &mut records, row, most);
        }
        if let Step::Back { at } = step {
            catch_up(r, shared, &mut floor, &mut records, at, most);
        }
    }
    (records, floor, None)
}

/// A box that comes back where little else is left to do, now and then, if boxes do so in this run.
fn returns(r: &mut Random, floor: &Floor, shared: &Shared) -> Option<Step> {
    let back = shared.wear.iter().any(|w| w.back > 0) && r.percent(10);
    returning(r, floor).filter(|_| back)
}

/// The row that a begin takes and the answers that it drops.
fn dropped(floor: &Floor, step: Step) -> Option<Dropped> {
    let Step::Begin { station, .. } = step else { return None };
    let row = floor.next_row(floor.stations[station].department)?;
    Some((row, floor.rows.get(&row).map_or(Vec::new(), on_the_way)))
}

/// Serves what waits of an attempt that is over, all of it or nearly so, where the run is driven like that.
fn clear(r: &mut Random, w: &Wear, floor: &mut Floor, records: &mut Vec<[u8; 8]>, row: usize, most: usize) {
    if !r.percent(w.cleared) {
        return;
    }
    let mut left = serves(floor, row);
    if !left.is_empty() && r.percent(w.but_one) {
        match w.but_at {
            Some(b) => left.retain(|step| !matches!(step, Step::Serve { at, .. } if *at == b)),
            None => drop(left.swap_remove(r.below(left.len()))),
        }
    }
    for step in left.into_iter().take(most - records.len()) {
        floor.step(step).expect("the request waits");
        records.push(encode(step));
    }
}

/// Serves what waited at a box that is back, of attempts that are over, where the run is driven like that.
fn catch_up(r: &mut Random, shared: &Shared, floor: &mut Floor, records: &mut Vec<[u8; 8]>, b: usize, most: usize) {
    let rows: Vec<usize> = floor.rows.keys().copied().filter(|row| floor.over(*row)).collect();
    for row in rows {
        let served = r.percent(shared.of(Department::of_row(row)).caught_up);
        for phase in [Phase::Read, Phase::Write].into_iter().filter(|_| served) {
            if records.len() < most {
                tried(floor, records, Step::Serve { phase, attempt: row, at: b });
            }
        }
    }
}

/// A begin in the next row, in one that was used before where there is one, and steps behind it that may have been meant for the attempt
/// before.
fn belated(r: &mut Random, floor: &mut Floor, records: &mut Vec<[u8; 8]>) {
    let worn: Vec<Department> = DEPARTMENTS.into_iter().filter(|d| floor.used(*d) == ROWS).collect();
    let of = if worn.is_empty() { &DEPARTMENTS[..] } else { &worn };
    let Some(step) = begin(r, floor, of, 0, 30) else { return };
    let Some((row, answers)) = dropped(floor, step) else { return };
    floor.step(step).expect("a station is idle and a row unused or free");
    records.push(encode(step));
    meant_for_another(r, floor, records, row, &answers);
}

/// Steps of the attempt in a row, up to one that is turned back, where the attempt before had answers on the way.
fn meant_for_another(r: &mut Random, floor: &mut Floor, records: &mut Vec<[u8; 8]>, row: usize, answers: &[(Phase, usize)]) {
    for _ in 0..r.between(1, 4) {
        let (phase, b) = match r.below(3) {
            0 if !answers.is_empty() => r.pick(answers),
            1 => (Phase::Read, r.below(floor.boxes.len())),
            _ => (Phase::Write, r.below(floor.boxes.len())),
        };
        let deliver = answers.contains(&(phase, b)) || r.percent(30);
        let step = if deliver { Step::Deliver { phase, attempt: row, from: b } } else { Step::Serve { phase, attempt: row, at: b } };
        records.push(encode(step));
        if floor.step(step).is_err() {
            return;
        }
    }
}

/// Which run through more attempts than rows: one at some boxes, one of many attempts, or one in which a box is away from the start.
#[derive(Clone, Copy, PartialEq)]
enum Through {
    Some,
    Many,
    Away,
}

/// The head of a run through more attempts than rows: in version 2 mostly with as many stations in one department as in the other.
fn worn_head(r: &mut Random, through: Through) -> Head {
    let n = match through {
        Through::Some => r.pick(&[1, 1, 2, 2, 3, 3, 3, 4, 4, 5, 6, 7, 8, 9]),
        Through::Many => r.pick(&[1, 1, 1, 2, 3]),
        Through::Away => r.pick(&[3, 3, 3, 4, 5]),
    };
    let version = version(r);
    let m = match (version, through) {
        (1, Through::Some) => r.pick(&[2, 3, 4, 6, 8, 12, 16, 16, 16]),
        (1, _) => r.pick(&[2, 3, 16]),
        (_, Through::Some) => r.pick(&[4, 6, 8, 12, 16, 16, 16]),
        _ => r.pick(&[4, 6, 16]),
    };
    if version == 2 && r.percent(70) {
        return Head { version, n, departments: (0..m).map(|s| (s % 2) as u8).collect() };
    }
    head_of(r, version, n, m)
}

/// A run through more attempts than there are rows, accepted whole, or turned back at its last step or before.
fn given_back(r: &mut Random) -> Vec<u8> {
    let through = match r.below(20) {
        0 => Through::Many,
        1..=5 => Through::Away,
        _ => Through::Some,
    };
    let head = worn_head(r, through);
    let back = if through == Through::Away { r.pick(&[0, 0, 0, 1, 2, 20]) } else { 0 };
    let driven = [0, 1].map(|_| if through == Through::Some { wear(r, head.n, head.m()) } else { brisk(r, back) });
    let away = [15, 0, 100][through as usize];
    let shared = shared(r, &head, driven, away);
    let most = match through {
        Through::Some if !r.percent(5) => 100 * head.n + r.pick(&[300, 300, 500, 800, 1500]),
        Through::Away => r.pick(&[1200, 2000]),
        _ => 4096,
    };
    // where both departments have a share in the steps, as many for each
    let twice = if (40..=60).contains(&shared.sails) { 2 } else { 1 };
    let last = if r.percent(20) { r.between(1, 12) } else { 0 };
    let (mut records, mut floor, dropped) = worn_steps(r, &shared, &head, (twice * most).min(4096), last);
    let full = !full(&floor).is_empty();
    match (dropped, r.below(3)) {
        (Some((row, answers)), _) => {
            meant_for_another(r, &mut floor, &mut records, row, &answers);
            more(r, &floor, &mut records);
        }
        (None, 0) if !full => {}
        (None, 1) if !full => {
            belated(r, &mut floor, &mut records);
            more(r, &floor, &mut records);
        }
        _ => worn_end(r, &mut floor, &mut records, full),
    }
    records.truncate(4096);
    let length = r.between(1, 24);
    let name = label(r, length);
    frame(r, &head, &name, &records)
}

/// A record that is turned back, and what follows it. Where a department has no row, a begin of the other may come first.
fn worn_end(r: &mut Random, floor: &mut Floor, records: &mut Vec<[u8; 8]>, full: bool) {
    let refusal = if full { r.pick(&[12, 12, 12, 12, 12, 11, 11, 10, 9, 9, 8]) } else { r.pick(&[14, 14, 14, 13, 23, 11, 10, 9, 8, 8]) };
    let first = match refusal {
        9 => Some(leaver(r, floor)),
        _ if full => begin(r, floor, &DEPARTMENTS, 0, 30),
        _ => None,
    };
    if let Some(step) = first {
        tried(floor, records, step);
    }
    let record = turned_back(r, floor, refusal);
    refused_last(r, floor, records, record);
}

fn short_run(r: &mut Random) -> Vec<u8> {
    let head = head(r);
    let most = r.below(60);
    let (records, _) = accepted_steps(r, &head, most);
    named(r, &head, &records)
}

/// A file that is right but for the length of its label, which may be too long or nothing at all.
fn mislabelled(r: &mut Random) -> Vec<u8> {
    let head = head(r);
    let (records, _) = accepted_steps(r, &head, 10);
    let length = r.pick(&[0, 1, 32, 33, 33, 34, 64, 127, 255]);
    let name = label(r, length);
    frame(r, &head, &name, &records)
}

/// One to three faults in the header, so that the order of the checks shows.
fn damaged(r: &mut Random) -> Vec<u8> {
    if r.percent(15) {
        return mislabelled(r);
    }
    let mut file = short_run(r);
    for _ in 0..r.pick(&[1, 1, 1, 2, 3]) {
        match r.below(10) {
            0 => {
                let l = u16::from_be_bytes([file[0], file[1]]).wrapping_add(r.pick(&[1, 2, 8, 256, 65_535, 65_528]));
                file[..2].copy_from_slice(&l.to_be_bytes());
            }
            1 => file.swap(0, 1),
            2 => file[2] = r.pick(&[0, 3, 3 - file[2].min(3), 129, 255]),
            3 => file[3] = r.pick(&[0, 10, 11, 255]),
            4 => file[4] = r.pick(&[0, 17, 18, 255]),
            5 => file[5] = r.pick(&[0, 33, 34, 64, 255]),
            6 => {
                // a byte of the label, where the file still has one
                let length = (file[5] as usize).clamp(0, file.len() - 6);
                file[5 + r.between(length.min(1), length)] = r.pick(&[0, 9, 10, 31, 32, 127, 128, 255]);
            }
            7 => {
                // the label as long as it may be, and the file just too short for it, or just long enough
                let length = r.between(1, 32);
                file[5] = length as u8;
                file.truncate((5 + length + r.below(2)).max(6));
                sign(&mut file);
            }
            8 => {
                for _ in 0..r.between(1, 7) {
                    file.push(r.below(256) as u8);
                }
                sign(&mut file);
            }
            _ => {
                let keep = r.below(file.len() + 1).max(6);
                file.truncate(keep);
                if r.percent(70) {
                    sign(&mut file);
                }
            }
        }
    }
    file
}

/// A file whose department bytes are wrong or missing, alone or beside another fault; one that has them and nothing behind; and one of the
/// other version.
fn miscalled(r: &mut Random) -> Vec<u8> {
    let (n, m) = sizes(r);
    let head = head_of(r, 2, n, m);
    let (records, _) = accepted_steps(r, &head, 12);
    let length = r.between(1, 32);
    let name = label(r, length);
    let mut file = frame(r, &head, &name, &records);
    let (first, any) = (behind_label(&file), r.below(m));
    let one = first + r.pick(&[0, m - 1, any]);
    match r.below(10) {
        0..=4 => file[one] = no_department(r),
        5 | 6 => file.truncate(one),
        7 => file.truncate(first + m),
        8 => drop(file.drain(first..first + r.pick(&[1, m]))),
        _ => file[2] = r.pick(&[0, 1, 3]),
    }
    match r.below(8) {
        // a byte of the label
        0 | 1 => file[6 + r.below(length)] = r.pick(&[0, 32, 127, 255]),
        // no whole record at the end
        2 | 3 => file.extend((0..r.between(1, 7)).map(|_| r.below(2) as u8)),
        // too many records
        4 => file.resize(first + m + 8 * r.pick(&[4096, 4097]), 0),
        5 => file[r.pick(&[2, 3, 4])] = r.pick(&[0, 3, 17]),
        _ => {}
    }
    sign(&mut file);
    file
}

/// Files of small sizes and of sizes about the limit, their L right.
fn sized(r: &mut Random) -> Vec<u8> {
    let size = match r.below(5) {
        0 | 1 => r.below(61),
        2 => r.pick(&[5, 6, 7, 14, 15, 32_798, 32_799, 40_000, 65_537, 65_538, 65_539, 70_000]),
        _ => r.pick(&[32_805, 32_806, 32_807, 32_808, 32_814, 32_821, 32_822, 32_822, 32_823, 32_823, 32_824]),
    };
    let head = head(r);
    let count = if head.version == 2 { head.m() } else { 0 };
    let length = if r.percent(60) { size.saturating_sub(6 + count) % 8 } else { r.between(1, 32) };
    let name = label(r, length);
    let records = if r.percent(50) { vec![encode(Step::Begin { station: 0, round: 1, revision: 7 })] } else { Vec::new() };
    let mut file = frame(r, &head, &name, &records);
    file.resize(size, 0);
    sign(&mut file);
    file
}

/// The head of a file that may have the most bytes of its version.
fn head_of_longest(r: &mut Random) -> Head {
    let (n, version) = (r.between(1, 9), version(r));
    head_of(r, version, n, 16)
}

/// As many records as a file may have, one fewer, one more, and as many as fit.
fn crowded(r: &mut Random) -> Vec<u8> {
    let longest = r.percent(25);
    let head = if longest { head_of_longest(r) } else { head(r) };
    let (mut records, floor) = accepted_steps(r, &head, 300);
    let count = if longest { r.pick(&[4096, 4096, 4096, 4097]) } else { r.pick(&[4095, 4096, 4096, 4097, 4098, 4099]) };
    let length = if longest { r.pick(&[31, 32, 32, 32]) } else { r.between(1, 32) };
    while records.len() < count {
        records.push(encode(about(r, &floor)));
    }
    let name = label(r, length);
    frame(r, &head, &name, &records)
}

/// Where the department bytes of a file stand, or its records.
fn behind_label(file: &[u8]) -> usize {
    6 + file[5] as usize
}

/// A good file with some bits turned over, most of them behind its label.
fn flipped(r: &mut Random) -> Vec<u8> {
    let mut file = short_run(r);
    let from = if r.percent(75) { behind_label(&file).min(file.len() - 1) } else { 0 };
    for _ in 0..r.pick(&[1, 1, 2, 5]) {
        let at = r.between(from, file.len() - 1);
        file[at] ^= 1 << r.below(8);
    }
    file
}

/// A good header, and records of any bytes among others that are near to being accepted.
fn wild_records(r: &mut Random) -> Vec<u8> {
    let head = head(r);
    let (mut records, floor) = accepted_steps(r, &head, 20);
    for _ in 0..r.below(200) {
        let record = if r.percent(20) { (r.next()).to_be_bytes() } else { encode(about(r, &floor)) };
        records.push(record);
    }
    let name = label(r, 4);
    frame(r, &head, &name, &records)
}

fn noise(r: &mut Random) -> Vec<u8> {
    let size = if r.percent(90) { r.below(300) } else { r.below(40_000) };
    let mut file: Vec<u8> = (0..size).map(|_| r.below(256) as u8).collect();
    if r.percent(60) {
        sign(&mut file);
    }
    for (at, byte) in [(2, r.between(1, 2)), (3, r.between(1, 9)), (4, r.between(1, 16)), (5, r.between(1, 32))] {
        if at < file.len() && r.percent(70) {
            file[at] = byte as u8;
        }
    }
    file
}
