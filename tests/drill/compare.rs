//! compare PROGRAM COUNT SEED FOLDER [coverage|record|CLAIM|claims]: runs PROGRAM on COUNT generated drill files and compares what it prints
//! with the reference, byte for byte; on each played file it also looks for demand 3's safety claims, within each department, in the
//! reference's trace and lines, and that a box that comes back is as it went. Some files are run again: each version 2 file with accepted
//! steps of both departments twice, its accepted steps without those of one of them, where the stations of the other have to print what they
//! printed; each file with boxes put away once, its accepted steps without these stops and returns, where all stations have to; and each file
//! with kind 6 once, with kind 8 in its place. The first file on which something differs is left in FOLDER. With the name of a CLAIM that is
//! the first file on which the reference breaks it, with `claims` the first on which it breaks any; PROGRAM is not run then, and what the
//! files reached is not counted. With `record` PROGRAM is not run either: it is a file, to which each file that a program would be run on
//! goes, with what it has to print.
//! compare RECORDED: compares what the reference prints with such a file.
mod away;
mod generate;

use reference::{decode, Answer, Attempt, Department, Floor, Parts, Phase, Played, Request, Said, State, Step, DEPARTMENTS, ROWS};
use std::collections::{BTreeMap, BTreeSet};
use std::io::{BufRead, Read, Write};
use std::path::Path;
use std::process::{Command, Stdio};
use std::sync::atomic::{AtomicU64, Ordering};
use std::sync::Mutex;
use std::time::Duration;

/// What the files of a comparison reached: how many files for each thing reached.
type Coverage = BTreeMap<String, usize>;

/// How the lines of the coverage start that 4,000 files have to reach, each of them.
const HAVE_TO: [&str; 2] = [WITHDRAWAL, away::AWAY];

/// What is compared with the reference: a program that is run, or none, where each file and what is to be printed are kept.
enum Program {
    Runs(String),
    Records(Mutex<Vec<(Vec<u8>, String)>>),
}

fn main() {
    let words: Vec<String> = std::env::args().collect();
    if words.len() == 2 {
        return replay(Path::new(&words[1])).expect("RECORDED can be read");
    }
    let folder = Path::new(&words[4]);
    let records = words.get(5).is_some_and(|word| word == "record");
    let program = &if records { Program::Records(Mutex::default()) } else { Program::Runs(words[1].clone()) };
    let count: u64 = words[2].parse().expect("COUNT is a number");
    let seed: u64 = words[3].parse().expect("SEED is a number");
    assert_eq!(reference::report(&document_example(7, 5)), DOCUMENT_LINES, "the reference does not print document 01's example");
    let workers = std::thread::available_parallelism().map_or(1, |n| n.get()) as u64;
    let claim = words.get(5).filter(|word| *word != "coverage" && *word != "record");
    for (records, lines) in [(5, "station 0 decided 16 0\nend 5 0\n"), (4, "station 0 writing 16 none\nend 4 0\n")] {
        let printed = reference::report(&document_example(0, records));
        let wanted = format!("panel luff boxes 1 stations 1\n{lines}");
        assert!(claim.is_some() || printed == wanted, "the reference prints on a withdrawal\n{printed}and not\n{wanted}");
    }
    let broken = claim.map(|word| if word == "claims" { " breaks ".to_string() } else { format!(" breaks {word}: ") });
    let differs = |why: &String| broken.as_ref().map_or(true, |claim| why.contains(claim));
    // the lowest number of a file on which something differs
    let lowest = AtomicU64::new(u64::MAX);
    let work = &|worker: u64| {
        let mut reached = Coverage::new();
        for number in (worker..count).step_by(workers as usize) {
            if number > lowest.load(Ordering::Relaxed) {
                break;
            }
            let file = generate::file(seed, number);
            let said = if claim.is_some() { alone(&file) } else { compare(program, &file, number, &mut reached) };
            if let Some(why) = said.err().filter(differs) {
                lowest.fetch_min(number, Ordering::Relaxed);
                return (reached, Some((number, why)));
            }
        }
        (reached, None)
    };
    let mut reached = Coverage::new();
    let mut wrong: Vec<(u64, String)> = Vec::new();
    std::thread::scope(|scope| {
        let threads: Vec<_> = (0..workers).map(|w| scope.spawn(move || work(w))).collect();
        for t in threads {
            let (by_worker, first) = t.join().expect("a worker ends");
            wrong.extend(first);
            for (what, times) in by_worker {
                *reached.entry(what).or_insert(0) += times;
            }
        }
    });
    if let Some((number, why)) = wrong.iter().min() {
        println!("drill: file {number} of seed {seed}: {why}");
        leave(folder, *number, &generate::file(seed, *number), why);
        std::process::exit(1);
    }
    if let Some(claim) = claim {
        println!("drill: {claim}: broken by none of {count} files");
        return;
    }
    if let Program::Records(all) = program {
        record(Path::new(&words[1]), &mut all.lock().unwrap()).expect("what is recorded can be written");
    } else if words.get(5).is_some() {
        for (what, files) in &reached {
            println!("{files:6} {what}");
        }
    }
    let [sails, canvas] = DEPARTMENTS.map(|d| reached.get(&taken_out(d)).copied().unwrap_or(0) as u64);
    assert!(count < 1000 || 8 * sails.min(canvas) >= count, "only {sails} and {canvas} files were run without one department's steps");
    let has_to = |what: &str| HAVE_TO.iter().any(|start| what.starts_with(start));
    let unmet: Vec<_> = reached.iter().filter(|(what, files)| has_to(what) && **files == 0).collect();
    assert!(count < 4000 || unmet.is_empty(), "no file reached {unmet:?}");
    println!("drill: {sails} files run again without the steps of sails, {canvas} without those of canvas");
    println!("drill: {} files run again without stops and returns", reached.get(NOT_AWAY).copied().unwrap_or(0));
    println!("drill: {count} files compared");
}

/// Document 01's own example of a file, with that revision in the place of 7, and its first records in the place of all 5.
fn document_example(revision: u8, records: usize) -> Vec<u8> {
    let mut file = vec![0x00, 0x30, 0x01, 0x01, 0x01, 0x04, 0x6C, 0x75, 0x66, 0x66];
    file.extend([0x01, 0x00, 0x00, 0x01, 0x00, 0x00, 0x00, revision]);
    for kind in [2, 4, 3, 5] {
        file.extend([kind, 0, 0, 0, 0, 0, 0, 0]);
    }
    file.truncate(10 + 8 * records);
    file[1] = file.len() as u8 - 2;
    file
}

/// What document 01 says that its example prints.
const DOCUMENT_LINES: &str = "panel luff boxes 1 stations 1\nstation 0 decided 16 7\nend 5 0\n";

/// Writes what was recorded, the shorter half of the files first, since most faults show there and sooner; of the other half the longest
/// first, for the limits. Before each file and each text stands its length.
fn record(path: &Path, all: &mut [(Vec<u8>, String)]) -> std::io::Result<()> {
    all.sort_by(|(a, _), (b, _)| (a.len(), a).cmp(&(b.len(), b)));
    let half = all.len() / 2;
    all[half..].reverse();
    let mut out = std::io::BufWriter::new(std::fs::File::create(path)?);
    for part in all.iter().flat_map(|(file, expected)| [file.as_slice(), expected.as_bytes()]) {
        out.write_all(&(part.len() as u32).to_be_bytes())?;
        out.write_all(part)?;
    }
    out.flush()
}

/// Compares the reference, which may be another than the one that was there then, with what was recorded.
fn replay(path: &Path) -> std::io::Result<()> {
    let mut recorded = std::io::BufReader::new(std::fs::File::open(path)?);
    let mut next = || {
        let mut size = [0; 4];
        recorded.read_exact(&mut size)?;
        let mut part = vec![0; u32::from_be_bytes(size) as usize];
        recorded.read_exact(&mut part).map(|_| (part, recorded.fill_buf().is_ok_and(|left| left.is_empty())))
    };
    std::panic::set_hook(Box::new(|_| {}));
    for number in 0.. {
        let ((file, _), (expected, last)) = (next()?, next()?);
        let why = match std::panic::catch_unwind(|| reference::report(&file)) {
            Ok(printed) => same(printed.as_bytes(), &String::from_utf8_lossy(&expected)).err(),
            Err(_) => Some("the program ended with a panic".to_string()),
        };
        if let Some(why) = why {
            println!("drill: file {number} recorded: {why}");
            std::process::exit(1);
        }
        if last {
            println!("drill: {} recorded files compared", number + 1);
            break;
        }
    }
    Ok(())
}

fn leave(folder: &Path, number: u64, file: &[u8], why: &str) {
    let path = folder.join(format!("{number}.drill"));
    let said = std::fs::create_dir_all(folder).and_then(|_| std::fs::write(&path, file));
    match said {
        Ok(()) => println!("drill: the file is left at {}", path.display()),
        Err(e) => println!("drill: the file could not be left: {e}"),
    }
    let _ = std::fs::write(path.with_extension("why"), why);
}

/// Looks for the claims in what the reference makes of a file, with no program.
fn alone(file: &[u8]) -> Result<(), String> {
    let Ok(parts) = reference::parts(file) else { return Ok(()) };
    let played = reference::play(&parts);
    claims(&played, &reference::lines(&parts, &played)).map_err(in_trace)?;
    returns(&parts, &played).map_err(in_trace)?;
    for out in DEPARTMENTS.into_iter().filter(|_| parts.version == 2) {
        deletion(&parts, &played, &left(&parts, &played, out), out).map_err(in_trace)?;
    }
    absences(&parts, &played, &answering(&parts, &played)).map_err(in_trace)
}

fn in_trace(claim: String) -> String {
    format!("the reference's own trace breaks {claim}")
}

fn compare(program: &Program, file: &[u8], number: u64, reached: &mut Coverage) -> Result<(), String> {
    cover_head(file, reached);
    let pieces = number % 64 == 5;
    let parts = match reference::parts(file) {
        Ok(parts) => parts,
        Err(refusal) => {
            note(reached, &format!("refusal {refusal:2}"));
            return prints(program, file, pieces, &reference::report(file));
        }
    };
    let played = reference::play(&parts);
    let lines = reference::lines(&parts, &played);
    claims(&played, &lines).map_err(in_trace)?;
    returns(&parts, &played).map_err(in_trace)?;
    cover(&played, reached);
    cover_rows(&parts, &played, reached);
    cover_numbers(&parts, &played, reached);
    cover_departments(&parts, &played, reached);
    cover_withdrawals(&parts, &played, reached);
    away::cover(&parts, &played, reached);
    prints(program, file, pieces, &lines)?;
    for out in DEPARTMENTS.into_iter().filter(|_| parts.version == 2) {
        let left = left(&parts, &played, out);
        if left.len() < played.trace.len() && left.iter().any(|(_, step, _)| !of_a_box(*step)) {
            cover_deletion(&played, &left, out, reached);
            let (short, expected) = without(file, &parts, &lines, &left, Some(out));
            prints(program, &short, false, &expected).map_err(|why| format!("the program breaks deletion: without {out:?}: {why}"))?;
        }
        deletion(&parts, &played, &left, out).map_err(in_trace)?;
    }
    let answering = answering(&parts, &played);
    if answering.len() < played.trace.len() {
        note(reached, NOT_AWAY);
        let (short, expected) = without(file, &parts, &lines, &answering, None);
        prints(program, &short, false, &expected).map_err(|why| format!("the program breaks return: with no box away: {why}"))?;
    }
    if let Some(other) = with_kind_8(file, &parts) {
        prints(program, &other, false, &lines).map_err(|why| format!("with kind 8 in the place of 6: {why}"))?;
    }
    absences(&parts, &played, &answering).map_err(in_trace)
}

/// Document 02, wish 8: kind 6 is read as kind 8. The file with 8 in the place of each 6, where there is one.
fn with_kind_8(file: &[u8], parts: &Parts) -> Option<Vec<u8>> {
    let (first, mut other) = (file.len() - 8 * parts.records.len(), file.to_vec());
    for kind in other[first..].iter_mut().step_by(8).filter(|kind| **kind == 6) {
        *kind = 8;
    }
    Some(other).filter(|other| other != file)
}

fn prints(program: &Program, file: &[u8], pieces: bool, expected: &str) -> Result<(), String> {
    match program {
        Program::Runs(program) => same(&run(program, file, pieces)?, expected),
        Program::Records(all) => Ok(all.lock().unwrap().push((file.to_vec(), expected.to_string()))),
    }
}

fn same(printed: &[u8], expected: &str) -> Result<(), String> {
    if printed != expected.as_bytes() {
        return Err(format!("expected\n{expected}printed\n{}", String::from_utf8_lossy(printed)));
    }
    Ok(())
}

/// What the program prints on a file. In pieces: the file comes through the pipe in three parts.
fn run(program: &str, file: &[u8], pieces: bool) -> Result<Vec<u8>, String> {
    let mut child = Command::new(program)
        .stdin(Stdio::piped())
        .stdout(Stdio::piped())
        .spawn()
        .map_err(|e| format!("the program does not start: {e}"))?;
    let mut input = child.stdin.take().expect("it was asked for");
    for part in file.chunks(if pieces { file.len() / 3 + 1 } else { file.len().max(1) }) {
        // a program that has read enough may close its input
        let _ = input.write_all(part);
        if pieces {
            std::thread::sleep(Duration::from_millis(1));
        }
    }
    drop(input);
    let output = child.wait_with_output().map_err(|e| e.to_string())?;
    if !output.status.success() {
        return Err(format!("the program ended with {}", output.status));
    }
    Ok(output.stdout)
}

/// Whether a step puts a box away or brings it back.
fn of_a_box(step: Step) -> bool {
    matches!(step, Step::Stop { .. } | Step::Back { .. })
}

/// Whether a step is one of that department: a begin and a gone by its station, a serve and a delivery by the number of its row. That a box
/// goes away or comes back is of neither.
fn belongs(step: Step, stations: &[Department], department: Department) -> bool {
    match step {
        Step::Begin { station, .. } | Step::Gone { station } => stations[station] == department,
        Step::Serve { attempt, .. } | Step::Deliver { attempt, .. } => (attempt < 64) == (department == Department::Sails),
        Step::Stop { .. } | Step::Back { .. } => false,
    }
}

/// The words under which the files are counted that were run without the steps of that department.
fn taken_out(out: Department) -> String {
    format!("deletion: {out:?} taken out")
}

/// The words under which the files are counted that were run with no box put away.
const NOT_AWAY: &str = "return: stops and returns taken out";

/// Some of the accepted steps of a file: the record, the step and what it said.
type Left<'a> = Vec<(&'a [u8], Step, Said)>;

/// The accepted steps of a file that are wanted.
fn those<'a>(parts: &Parts<'a>, played: &Played, wanted: impl Fn(Step) -> bool) -> Left<'a> {
    let accepted = parts.records.clone().zip(&played.trace);
    accepted.map(|(record, (step, said))| (record, *step, *said)).filter(|(_, step, _)| wanted(*step)).collect()
}

/// The accepted steps of a file but those of that department: what puts a box away or brings it back is kept.
fn left<'a>(parts: &Parts<'a>, played: &Played, out: Department) -> Left<'a> {
    let stations = parts.stations();
    those(parts, played, |step| !belongs(step, &stations, out))
}

/// The accepted steps of a file with no box put away.
fn answering<'a>(parts: &Parts<'a>, played: &Played) -> Left<'a> {
    those(parts, played, |step| !of_a_box(step))
}

/// The file of the steps left, and what the program has to print on it. All of them are accepted, a station stands as it stood, and one of
/// the department taken out, if one is, has done nothing.
fn without(file: &[u8], parts: &Parts, lines: &str, left: &Left, out: Option<Department>) -> (Vec<u8>, String) {
    let mut short = file[..file.len() - 8 * parts.records.len()].to_vec();
    short.extend(left.iter().flat_map(|(record, _, _)| record.iter()));
    generate::sign(&mut short);
    let mut expected: Vec<String> = lines.lines().map(String::from).collect();
    for (s, department) in parts.stations().into_iter().enumerate() {
        if Some(department) == out {
            expected[1 + s] = format!("station {s} idle 0 none");
        }
    }
    expected[1 + parts.m] = format!("end {} 0\n", left.len());
    (short, expected.join("\n"))
}

/// The floor of the steps left, each of which says what it said.
fn played_again(parts: &Parts, left: &Left) -> Result<Floor, String> {
    let mut floor = Floor::new(parts.n, &parts.stations());
    for (_, step, said) in left {
        let now = floor.step(*step);
        if now != Ok(*said) {
            return Err(format!("{step:?} gives {now:?} in place of {said:?}"));
        }
    }
    Ok(floor)
}

/// Document 02, wish 6, the deletion on the reference: each step left says what it said, and behind the last the records of the other
/// department in the boxes, its stations and its rows are what they were.
fn deletion(parts: &Parts, played: &Played, left: &Left, out: Department) -> Result<(), String> {
    let floor = played_again(parts, left).map_err(|why| format!("deletion: without {out:?} {why}"))?;
    let (was, other) = (&played.floor, DEPARTMENTS[1 - out as usize]);
    let boxes = was.boxes.iter().zip(&floor.boxes).all(|(a, b)| a.away == b.away && a.register(other) == b.register(other));
    let stations = was.stations.iter().zip(&floor.stations).all(|(a, b)| a.department == out || a == b);
    let rows = was.rows.range(other.rows()).eq(floor.rows.range(other.rows()));
    if boxes && stations && rows { Ok(()) } else { Err(format!("deletion: without {out:?} another floor of {other:?} is left")) }
}

/// Document 02, wish 8, on the reference: a box that was away has changed nothing. Without the steps that put a box away or bring it back
/// each step says what it said, and behind the last the records in the boxes, the stations and the rows are what they were.
fn absences(parts: &Parts, played: &Played, left: &Left) -> Result<(), String> {
    let floor = played_again(parts, left).map_err(|why| format!("return: with no box away {why}"))?;
    let was = &played.floor;
    let boxes = was.boxes.iter().zip(&floor.boxes).all(|(a, b)| a.sails == b.sails && a.canvas == b.canvas);
    let same = boxes && was.stations == floor.stations && was.rows == floor.rows;
    if same { Ok(()) } else { Err("return: with no box away another floor is left".to_string()) }
}

/// Document 02, wish 8, on the reference: a box that comes back has the records that it had when it went, and what waited there waits. The
/// accepted steps are played again.
fn returns(parts: &Parts, played: &Played) -> Result<(), String> {
    let mut floor = Floor::new(parts.n, &parts.stations());
    // the floor before each box went
    let mut went: BTreeMap<usize, Floor> = BTreeMap::new();
    for (step, _) in &played.trace {
        let was = if of_a_box(*step) { Some(floor.clone()) } else { None };
        let _ = floor.step(*step);
        let (Step::Stop { at } | Step::Back { at }, Some(was)) = (*step, was) else { continue };
        waits_on(&was, &floor, at)?;
        if let Step::Stop { .. } = step {
            went.insert(at, was);
            continue;
        }
        let was = went.remove(&at).ok_or(format!("return: box {at} comes back and was not away"))?;
        waits_on(&was, &floor, at)?;
        let (old, new) = (&was.boxes[at], &floor.boxes[at]);
        if new.away || old.sails != new.sails || old.canvas != new.canvas {
            return Err(format!("return: box {at} goes as {old:?} and comes back as {new:?}"));
        }
    }
    Ok(())
}

/// What waited at a box waits there, for the same attempt.
fn waits_on(was: &Floor, now: &Floor, b: usize) -> Result<(), String> {
    for (row, a) in &was.rows {
        let (same, new) = (now.rows[row].rank == a.rank, &now.rows[row]);
        let read = a.reads[b] != Request::Waiting || (same && new.reads[b] == Request::Waiting);
        let write = a.writes[b] != Request::Waiting || (same && new.writes[b] == Request::Waiting);
        if !read || !write {
            return Err(format!("return: what waited at box {b} of attempt {row} waits no more"));
        }
    }
    Ok(())
}

/// The history of a department: station, rank and offered revision of each attempt, the highest rank served, and what each station decided.
#[derive(Default)]
struct History {
    begun: Vec<(usize, u32, u32)>,
    highest_served: u32,
    decided: Vec<(usize, u32)>,
}

/// Demand 3's safety claims on the whole history of each department, read off the accepted steps and what they said: an attempt is its
/// begin, its department that of its station, and a number means its last begin. A revision is any number, 0 too. What a station decided is
/// shown on the floor and by the last word of its line. An error starts with the name of the claim.
fn claims(played: &Played, lines: &str) -> Result<(), String> {
    let department = |station: usize| played.floor.stations[station].department;
    let mut histories: [History; 2] = Default::default();
    // the attempt that each number means: its department and its place in that history
    let mut last: BTreeMap<usize, (usize, usize)> = BTreeMap::new();
    for (step, said) in &played.trace {
        match (*step, *said) {
            (Step::Begin { station, round, revision }, Said::Begun(number)) => {
                let of = department(station);
                let history = &mut histories[of as usize];
                in_order(number, of, history.begun.len())?;
                last.insert(number, (of as usize, history.begun.len()));
                history.begun.push((station, round * 16 + station as u32, revision));
            }
            (Step::Serve { attempt, .. }, Said::Served(_)) => {
                let (of, at) = last[&attempt];
                let history = &mut histories[of];
                history.highest_served = history.highest_served.max(history.begun[at].1);
            }
            (Step::Deliver { attempt, .. }, Said::Decided(revision)) => {
                let (of, at) = last[&attempt];
                decides(&mut histories[of], at, revision)?;
            }
            (Step::Deliver { attempt, .. }, Said::Aborted(_)) => {
                let (of, at) = last[&attempt];
                if histories[of].highest_served <= histories[of].begun[at].1 {
                    return Err(format!("abort: attempt {attempt} aborts, and no higher rank of its department was served before"));
                }
            }
            _ => {}
        }
    }
    for (number, s) in played.floor.stations.iter().enumerate() {
        let decided = &histories[s.department as usize].decided;
        let said = decided.iter().find(|(station, _)| *station == number).map(|(_, v)| *v);
        let word = said.map_or("none".to_string(), |v| v.to_string());
        let printed = lines.lines().nth(1 + number).and_then(|line| line.rsplit(' ').next());
        if s.decided != said || printed != Some(word.as_str()) {
            return Err(format!("shown: station {number} shows {:?}, its line ends with {printed:?}, and {said:?} was said", s.decided));
        }
    }
    Ok(())
}

/// The numbers of a department's attempts are in order up to its 64th; from then on each is one of them.
fn in_order(number: usize, department: Department, begun: usize) -> Result<(), String> {
    let first = if department == Department::Sails { 0 } else { 64 };
    let right = if begun < 64 { number == first + begun } else { (first..first + 64).contains(&number) };
    if right { Ok(()) } else { Err(format!("the order of attempts: {number} is begun out of order")) }
}

/// Agreement and validity at a decision of an attempt of that department.
fn decides(history: &mut History, attempt: usize, revision: u32) -> Result<(), String> {
    if let Some((_, other)) = history.decided.iter().find(|(_, v)| *v != revision) {
        return Err(format!("agreement: {other} and {revision} are both decided"));
    }
    if !history.begun.iter().any(|(_, _, offer)| *offer == revision) {
        return Err(format!("validity: {revision} is decided and was not offered before in its department"));
    }
    history.decided.push((history.begun[attempt].0, revision));
    Ok(())
}

fn note(reached: &mut Coverage, what: &str) {
    *reached.entry(what.to_string()).or_insert(0) += 1;
}

/// What a played file reached.
fn cover(played: &Played, reached: &mut Coverage) {
    let floor = &played.floor;
    let times = |f: &dyn Fn(&Said) -> bool| played.trace.iter().filter(|(_, said)| f(said)).count();
    let decided = times(&|s| matches!(s, Said::Decided(_)));
    let aborted = times(&|s| matches!(s, Said::Aborted(_)));
    note(reached, &format!("refusal {:2}", played.refusal));
    let used = DEPARTMENTS.into_iter().any(|d| floor.used(d) == ROWS);
    let mut all = vec![
        ("64 rows used", used),
        ("64 rows used and a decision", used && decided > 0),
        ("decided", decided > 0),
        ("decided by two stations or more", decided > 1),
        ("aborted", aborted > 0),
        ("aborted 20 times or more", aborted >= 20),
        ("a box stopped", times(&|s| matches!(s, Said::Stopped(_))) > 0),
        ("a box back", times(&|s| matches!(s, Said::Back(_))) > 0),
        ("a station gone", times(&|s| matches!(s, Said::Gone(_))) > 0),
        ("gone after deciding", floor.stations.iter().any(|s| s.state == State::Gone && s.decided.is_some())),
        ("1,000 accepted steps or more", played.trace.len() >= 1000),
        ("4,096 accepted steps", played.trace.len() == 4096),
    ];
    let outranked = |r: &Request<Answer>| *r == Request::Received(Answer::Outranked);
    let (mut late, mut adopted, mut differ) = (false, false, false);
    let mut at_a_read = [0, 0]; // aborts at the first answer to a read, and at a later one
    // of the attempt last begun in each row: its station, its offer, answers to its reads that were received, whether it is over
    let mut of_station = [0; 2 * ROWS];
    let mut offer = [0; 2 * ROWS];
    let mut read = [0; 2 * ROWS];
    let mut over = [false; 2 * ROWS];
    let mut writes: [Vec<u32>; 2] = Default::default();
    for (step, said) in &played.trace {
        if let (Step::Begin { station, revision, .. }, Said::Begun(row)) = (*step, *said) {
            (of_station[row], offer[row], read[row], over[row]) = (station, revision, 0, false);
        }
        if let Step::Deliver { phase: Phase::Read, attempt, .. } = *step {
            read[attempt] += 1;
            if let Said::Aborted(_) = *said {
                at_a_read[(read[attempt] > 1) as usize] += 1;
            }
        }
        match (*step, *said) {
            (Step::Serve { attempt, .. }, _) => late |= over[attempt],
            (_, Said::Decided(_)) | (_, Said::Aborted(_)) => {
                if let Step::Deliver { attempt, .. } = *step {
                    over[attempt] = true;
                }
            }
            (Step::Gone { station }, _) => {
                for row in 0..over.len() {
                    over[row] |= of_station[row] == station;
                }
            }
            (Step::Deliver { attempt, .. }, Said::WriteIssued(v)) => {
                adopted |= v != offer[attempt];
                let writes = &mut writes[Department::of_row(attempt) as usize];
                differ |= writes.iter().any(|w| *w != v);
                writes.push(v);
            }
            _ => {}
        }
    }
    all.push(("a request served after its attempt was over", late));
    all.push(("a write of another's revision", adopted));
    all.push(("writes of different revisions", differ));
    all.push(("aborted at the first answer to a read", at_a_read[0] > 0));
    all.push(("aborted at a later answer to a read", at_a_read[1] > 0));
    all.push(("aborted at a read and at a write", at_a_read[0] + at_a_read[1] > 0 && aborted > at_a_read[0] + at_a_read[1]));
    let any = |f: &dyn Fn(&Attempt) -> bool| floor.rows.values().any(f);
    all.push(("an outranked answer received behind the write", any(&|a| a.written.is_some() && a.reads.iter().any(outranked))));
    all.push(("a second outranked answer received", any(&|a| a.reads.iter().filter(|r| outranked(r)).count() > 1)));
    for (what, holds) in all {
        if holds {
            note(reached, what);
        }
    }
    note(reached, &format!("boxes {}", floor.boxes.len()));
    note(reached, &format!("stations {:2}", floor.stations.len()));
}

/// What is known of a row beside the attempt in it.
#[derive(Clone, Default)]
struct Row {
    /// how its attempt ended
    ended: &'static str,
    /// how often it was given back; the station of the attempt before, and that attempt's answers that were dropped
    times: usize,
    former: usize,
    dropped: Vec<(Phase, usize)>,
}

/// What a played file reached of rows given back. Its steps are played again, the refused one too.
fn cover_rows(parts: &Parts, played: &Played, reached: &mut Coverage) {
    let stations = parts.stations();
    let begins = DEPARTMENTS.map(|d| begun(played, d).len());
    let many = begins.into_iter().max().unwrap_or(0);
    if many < ROWS {
        return;
    }
    let mut all: BTreeSet<String> = BTreeSet::new();
    let mut floor = Floor::new(parts.n, &stations);
    let mut rows = vec![Row::default(); 2 * ROWS];
    for record in parts.records.clone().take(played.trace.len() + 1) {
        let Ok(step) = decode(record) else { break };
        match step {
            Step::Begin { station, .. } => cover_begin(step, station, &mut floor, &mut rows, &mut all),
            Step::Gone { station } => {
                let state = floor.stations.get(station).map(|s| s.state);
                if let (Ok(_), Some(State::Reading(row) | State::Writing(row))) = (floor.step(step), state) {
                    rows[row].ended = "its station went";
                    if floor.free(row) {
                        all.insert("a row free as its station goes".to_string());
                    }
                }
            }
            Step::Stop { .. } | Step::Back { .. } => drop(floor.step(step)),
            Step::Serve { phase, attempt, .. } => {
                let said = floor.step(step);
                let again = rows.get(attempt).is_some_and(|row| row.times > 0);
                let kind = if phase == Phase::Read { "read" } else { "write" };
                match said {
                    Ok(_) if again => drop(all.insert(format!("given back: then a serve of the new attempt's {kind}"))),
                    Err(14) if again => drop(all.insert(format!("given back: then refusal 14 to a serve of a {kind}"))),
                    _ => {}
                }
            }
            Step::Deliver { phase, attempt, from } => {
                let said = floor.step(step);
                let Some(row) = rows.get_mut(attempt) else { continue };
                row.ended = match (said, phase) {
                    (Ok(Said::Decided(_)), _) => "it decided",
                    (Ok(Said::Aborted(_)), Phase::Read) => "it aborted at a read",
                    (Ok(Said::Aborted(_)), Phase::Write) => "it aborted at a write",
                    _ => row.ended,
                };
                let dropped = row.dropped.contains(&(phase, from));
                let gone = row.times > 0 && floor.stations[row.former].state == State::Gone;
                for (what, holds) in [
                    ("a delivery to the new attempt", said.is_ok()),
                    ("a delivery to the new attempt where an answer was dropped", said.is_ok() && dropped),
                    ("a delivery to the new attempt, the former station gone", said.is_ok() && gone),
                    ("refusal 14 to a delivery", said == Err(14)),
                    ("refusal 14 to a delivery where a read's answer was dropped", said == Err(14) && dropped && phase == Phase::Read),
                    ("refusal 14 to a delivery where a write's answer was dropped", said == Err(14) && dropped && phase == Phase::Write),
                    ("a decision of the new attempt", matches!(said, Ok(Said::Decided(_)))),
                    ("an abort of the new attempt", matches!(said, Ok(Said::Aborted(_)))),
                ] {
                    if row.times > 0 && holds {
                        all.insert(format!("given back: then {what}"));
                    }
                }
            }
        }
    }
    cover_sides(&stations, begins, &mut all);
    let most = rows.iter().map(|row| row.times).max().unwrap_or(0);
    for (what, holds) in [
        ("65 attempts or more", many > ROWS),
        ("200 attempts or more", many >= 200),
        ("500 attempts or more", many >= 500),
        ("800 attempts or more", many >= 800),
        ("given back: a row, twice or more", most >= 2),
        ("given back: a row, ten times or more", most >= 10),
        ("given back: each row", rows.chunks(ROWS).any(|of| of.iter().all(|row| row.times > 0))),
    ] {
        if holds {
            all.insert(what.to_string());
        }
    }
    for what in all {
        note(reached, &what);
    }
}

/// The attempts that a department began: station and round of each.
fn begun(played: &Played, department: Department) -> Vec<(usize, u32)> {
    let of = |station: usize| played.floor.stations[station].department == department;
    let begin = |(step, _): &(Step, Said)| match *step {
        Step::Begin { station, round, .. } if of(station) => Some((station, round)),
        _ => None,
    };
    played.trace.iter().filter_map(begin).collect()
}

/// What the departments of a file reached together of rows given back, from the numbers of their attempts.
fn cover_sides(stations: &[Department], begins: [usize; 2], all: &mut BTreeSet<String>) {
    if !DEPARTMENTS.iter().all(|d| stations.contains(d)) {
        return;
    }
    for (one, other) in [(0, 1), (1, 0)] {
        let what = match begins[other] {
            _ if begins[one] <= ROWS => continue,
            0 => "none begun in the other",
            1..=ROWS => "none given back in the other",
            _ => continue,
        };
        all.insert(format!("departments: rows given back in {:?}, {what}", DEPARTMENTS[one]));
    }
    if begins.iter().all(|begun| *begun > ROWS) {
        all.insert("departments: rows given back in both, more than 64 attempts in each".to_string());
    }
}

/// A begin: which rows of its department are free, which with a smaller rank are not and for what one cause, and what is dropped.
fn cover_begin(step: Step, station: usize, floor: &mut Floor, rows: &mut [Row], all: &mut BTreeSet<String>) {
    let department = floor.stations.get(station).map_or(Department::Sails, |s| s.department);
    let other = DEPARTMENTS[1 - department as usize];
    let next = floor.next_row(department);
    let was = if floor.used(department) == ROWS { Some(floor.clone()) } else { None };
    let said = floor.step(step);
    if said.is_ok() && floor.next_row(other).is_none() {
        all.insert(format!("departments: {department:?} begins, no row of {other:?} unused or free"));
    }
    let Some(was) = was else { return };
    let Some(taken) = next.filter(|_| said.is_ok()) else {
        if let (Err(refusal), None) = (said, next) {
            all.insert(format!("64 rows used, none free: refusal {refusal:2} to a begin"));
            kept(&was, department, u32::MAX, all);
        }
        return;
    };
    let (old, free) = (&was.rows[&taken], department.rows().filter(|row| was.free(*row)).count());
    kept(&was, department, old.rank, all);
    let state = was.stations[old.station].state;
    let dropped = generate::on_the_way(old);
    for (what, holds) in [
        ("64 rows used, one free", free == 1),
        ("64 rows used, several free", free > 1),
        ("64 rows used, all free", free == ROWS),
        ("given back: not the lowest row that is free", (department.rows().start..taken).any(|row| was.free(row))),
        ("given back: with a read's answer on the way", dropped.iter().any(|(phase, _)| *phase == Phase::Read)),
        ("given back: with a write's answer on the way", dropped.iter().any(|(phase, _)| *phase == Phase::Write)),
        ("given back: to the same station", old.station == station),
        ("given back: of a station that reads or writes in another", matches!(state, State::Reading(_) | State::Writing(_))),
    ] {
        if holds {
            all.insert(what.to_string());
        }
    }
    all.insert(format!("given back: {}", rows[taken].ended));
    rows[taken] = Row { ended: "", times: rows[taken].times + 1, former: old.station, dropped };
}

/// The rows of a department below a rank that are not free, for one cause alone.
fn kept(floor: &Floor, department: Department, rank: u32, all: &mut BTreeSet<String>) {
    for (&number, a) in floor.rows.range(department.rows()).filter(|(_, a)| a.rank < rank) {
        let reads = a.reads.iter().filter(|r| **r == Request::Waiting).count();
        let writes = a.writes.iter().filter(|w| **w == Request::Waiting).count();
        let why = match (floor.stations[a.station].state, reads, writes) {
            (State::Reading(row), 0, _) if row == number => "its station reads in it",
            (State::Writing(row), 0, 0) if row == number => "its station writes in it",
            (_, 1, 0) if floor.over(number) => "one read waits",
            (_, 0, 1) if floor.over(number) => "one write waits",
            (_, 2.., 0) if floor.over(number) => "reads wait",
            (_, 0, 2..) if floor.over(number) => "writes wait",
            _ => continue,
        };
        all.insert(format!("not free: {why}"));
    }
}

/// How the lines of the coverage about withdrawals start: offers of revision 0, and decisions of it.
const WITHDRAWAL: &str = "withdrawal: ";

/// What a played file reached of withdrawals. Its steps are played again, the refused one too. A line that it does not reach is counted 0
/// times.
fn cover_withdrawals(parts: &Parts, played: &Played, reached: &mut Coverage) {
    let mut all: BTreeMap<&str, bool> = BTreeMap::new();
    let mut floor = Floor::new(parts.n, &parts.stations());
    // the rows given back
    let mut again: BTreeSet<usize> = BTreeSet::new();
    for (at, record) in parts.records.clone().take(played.trace.len() + 1).enumerate() {
        let Ok(step) = decode(record) else { break };
        if let (Step::Begin { station, .. }, Some(_)) = (step, played.trace.get(at)) {
            again.extend(floor.next_row(floor.stations[station].department).filter(|row| floor.rows.contains_key(row)));
        }
        let now = match step {
            Step::Begin { station, round, revision } => withdrawal_begins(&mut floor, step, station, round, revision),
            Step::Serve { phase, attempt, at } => withdrawal_served(&mut floor, step, phase, attempt, at),
            Step::Deliver { phase, attempt, .. } => withdrawal_delivered(&mut floor, step, phase, attempt, again.contains(&attempt)),
            Step::Stop { .. } | Step::Back { .. } | Step::Gone { .. } => {
                let _ = floor.step(step);
                Vec::new()
            }
        };
        for (what, holds) in now {
            *all.entry(what).or_insert(false) |= holds;
        }
    }
    let at_the_end = |state: Option<State>, decided| {
        floor.stations.iter().any(|s| s.decided == decided && state.map_or(true, |state| state == s.state))
    };
    let zero = at_the_end(None, Some(0));
    let [sails, canvas] = DEPARTMENTS.map(|d| floor.stations.iter().filter(|s| s.department == d).find_map(|s| s.decided));
    let cut = |decided: Option<u32>| decided.is_some_and(|v| v != 0);
    all.extend([
        ("decided, its station gone since", at_the_end(Some(State::Gone), Some(0))),
        ("decided, another station idle with none", zero && at_the_end(Some(State::Idle), None)),
        ("decided, another station reading with none", zero && floor.stations.iter().any(|s| matches!(s.state, State::Reading(_)))),
        ("decided, another station writing with none", zero && floor.stations.iter().any(|s| matches!(s.state, State::Writing(_)))),
        ("decided, another station gone with none", zero && at_the_end(Some(State::Gone), None)),
        ("decided in sails, a revision to cut in canvas", sails == Some(0) && cut(canvas)),
        ("decided in canvas, a revision to cut in sails", canvas == Some(0) && cut(sails)),
        ("decided in both departments", sails == Some(0) && canvas == Some(0)),
    ]);
    for (what, holds) in all {
        *reached.entry(format!("{WITHDRAWAL}{what}")).or_insert(0) += holds as usize;
    }
}

/// A begin, which may be a withdrawal, of a station that may have decided one, in a row that may be one's that did.
fn withdrawal_begins(floor: &mut Floor, step: Step, station: usize, round: u32, revision: u32) -> Vec<(&'static str, bool)> {
    let was = floor.stations.get(station).cloned();
    let department = was.as_ref().map_or(Department::Sails, |s| s.department);
    let used = floor.used(department);
    let old = floor.next_row(department).and_then(|row| floor.rows.get(&row)).map(|a| (a.station, a.rank, a.offer));
    let said = floor.step(step);
    let (last, decided) = was.map_or((0, None), |s| (s.last_round, s.decided));
    let (zero, begun) = (revision == 0, said.is_ok());
    let decider = |(s, rank, _): (usize, u32, u32)| floor.stations[s].decided == Some(0) && floor.stations[s].last_rank == rank;
    vec![
        ("begun", zero && begun),
        ("begun in the station's first round", zero && begun && last == 0),
        ("begun in round 65,535", zero && begun && round == 65_535),
        ("begun in a row given back", zero && begun && old.is_some()),
        ("begun in the 64th row", zero && begun && used == ROWS - 1),
        ("a row given back that had one offered", begun && old.is_some_and(|(_, _, offer)| offer == 0)),
        ("a row given back of an attempt that decided one", begun && old.is_some_and(decider)),
        ("refusal  8 to its begin", zero && said == Err(8)),
        ("refusal  9 to its begin", zero && said == Err(9)),
        ("refusal 10 to its begin", zero && said == Err(10)),
        ("refusal 11 to its begin, round 0", zero && said == Err(11) && round == 0),
        ("refusal 11 to its begin, the last round again", zero && said == Err(11) && round > 0 && round == last),
        ("refusal 11 to a revision's begin", !zero && said == Err(11)),
        ("refusal 12 to its begin", zero && said == Err(12)),
        ("refusal  9 to a begin of a station that decided one", said == Err(9) && decided == Some(0)),
        ("refusal 10 to a begin of a station that decided one", said == Err(10) && decided == Some(0)),
    ]
}

/// A request served at a box that holds a withdrawal, or that takes one.
fn withdrawal_served(floor: &mut Floor, step: Step, phase: Phase, row: usize, at: usize) -> Vec<(&'static str, bool)> {
    let department = Department::of_row(row);
    let was = floor.boxes.get(at).map(|b| b.register(department).clone());
    let served = floor.step(step).is_ok();
    let (Some(was), true) = (was, served) else { return Vec::new() };
    let (rank, held) = (floor.rows[&row].rank, floor.boxes[at].register(department).held);
    let (read, write) = (phase == Phase::Read, phase == Phase::Write);
    let taken = write && held != was.held;
    // the write rank alone makes the answer
    let behind = was.read_rank <= rank && was.held.is_some_and(|(r, v)| r > rank && v == 0);
    let value = |held: reference::Held| held.map(|(_, v)| v);
    vec![
        ("taken by a box that held nothing", taken && value(held) == Some(0) && was.held.is_none()),
        ("taken by a box that held a revision to cut", taken && value(held) == Some(0) && value(was.held).is_some_and(|v| v != 0)),
        ("taken by a box that held one", taken && value(held) == Some(0) && value(was.held) == Some(0)),
        ("held, and a revision taken in its place", taken && value(held) != Some(0) && value(was.held) == Some(0)),
        ("held, and a read outranked by its rank alone", read && behind),
        ("held, and a write not taken for its rank alone", write && behind),
        ("not taken", write && !taken && floor.rows[&row].written == Some(0)),
    ]
}

/// An answer delivered, in a row given back or not: what a station found that read, and how an attempt ended.
fn withdrawal_delivered(floor: &mut Floor, step: Step, phase: Phase, row: usize, again: bool) -> Vec<(&'static str, bool)> {
    let said = floor.step(step);
    let Some(a) = floor.rows.get(&row) else { return Vec::new() };
    let (zero, written) = (a.offer == 0, a.written);
    let issued = if let Ok(Said::WriteIssued(v)) = said { Some(v) } else { None };
    // what the boxes that answered hold, where the write is issued
    let found = a.reads.iter().filter_map(|r| if let Request::Received(Answer::Holds(held)) = r { Some(*held) } else { None });
    let found: Vec<Option<u32>> = if issued.is_some() { found.map(|held| held.map(|(_, v)| v)).collect() } else { Vec::new() };
    let (none, one, cut) = (found.contains(&None), found.contains(&Some(0)), found.iter().any(|v| v.is_some_and(|v| v != 0)));
    let department = Department::of_row(row);
    let taken = a.writes.iter().filter(|w| **w == Request::Received(true)).count();
    let aborted = matches!(said, Ok(Said::Aborted(_)));
    let decided = if let Ok(Said::Decided(v)) = said { Some(v) } else { None };
    let deciders = || floor.stations.iter().filter(|s| s.department == department && s.decided.is_some()).count();
    vec![
        ("its station finds nothing", zero && issued == Some(0) && !one && !cut),
        ("its station finds one", zero && issued == Some(0) && one),
        ("its station finds a revision to cut", zero && issued.is_some_and(|v| v != 0)),
        ("found by a station that offers a revision", !zero && issued == Some(0)),
        ("found beside a box that holds nothing", issued == Some(0) && one && none),
        ("found beside a revision of a lower rank", issued == Some(0) && one && cut),
        ("found beside a revision of a higher rank", issued.is_some_and(|v| v != 0) && one),
        ("aborted at a read", zero && aborted && phase == Phase::Read),
        ("aborted at a write", aborted && phase == Phase::Write && written == Some(0)),
        ("aborted at a write that some box took", aborted && phase == Phase::Write && written == Some(0) && taken > 0),
        ("decided by a station that offered it", zero && decided == Some(0)),
        ("decided by a station that offered a revision", !zero && decided == Some(0)),
        ("decided by a second station", decided == Some(0) && deciders() > 1),
        ("decided in a row given back", decided == Some(0) && again),
        ("a revision to cut decided by a station that withdraws", zero && decided.is_some_and(|v| v != 0)),
    ]
}

/// What the bytes before the records reached: versions, sizes at the limits, and 22 with its neighbours. What is wrong with them is looked
/// for apart from the reference.
fn cover_head(file: &[u8], reached: &mut Coverage) {
    let refusal = reference::parts(file).err();
    let ends = refusal.map_or("played".to_string(), |k| format!("refusal {k:2}"));
    if file.len() < 6 {
        return;
    }
    let version = file[2];
    if [32_806, 32_807, 32_821, 32_822, 32_823].contains(&file.len()) && version <= 3 {
        note(reached, &format!("{} bytes, version {version}: {ends}", file.len()));
    }
    if refusal == Some(1) {
        return;
    }
    if version <= 3 {
        note(reached, &format!("version {version}: {ends}"));
    }
    let (m, first) = (file[4] as usize, 6 + file[5] as usize);
    if version != 2 || !(1..=16).contains(&m) || first > file.len() {
        return;
    }
    let (label, behind) = (&file[6..first], &file[first..]);
    let missing = behind.len() < m;
    let wrong = behind.iter().take(m).any(|b| *b > 1);
    let label_wrong = !(1..=32).contains(&label.len()) || label.iter().any(|b| !(33..=126).contains(b));
    let rest = behind.len().saturating_sub(m);
    let records_wrong = rest % 8 != 0 || rest > 8 * 4096;
    for (what, holds) in [
        ("a department byte missing", missing && !wrong && !label_wrong),
        ("all department bytes missing", behind.is_empty() && !label_wrong),
        ("the last department byte missing", behind.len() + 1 == m && !label_wrong),
        ("a department byte of 2", !missing && wrong && behind.iter().take(m).all(|b| *b <= 2) && !label_wrong && !records_wrong),
        ("a department byte above 2", !missing && behind.iter().take(m).any(|b| *b > 2) && !label_wrong && !records_wrong),
        ("22 beside 4", (missing || wrong) && label_wrong && (1..=9).contains(&file[3])),
        ("22 beside 5", !missing && wrong && records_wrong && !label_wrong),
        ("department bytes and nothing behind", behind.len() == m && !wrong && !label_wrong),
    ] {
        if holds {
            note(reached, &format!("head: {what}: {ends}"));
        }
    }
}

/// The attempts about the limits of the departments' rows that steps of a played file name, and what such a step gave.
fn cover_numbers(parts: &Parts, played: &Played, reached: &mut Coverage) {
    let named = |step: &Step| match *step {
        Step::Serve { attempt, .. } | Step::Deliver { attempt, .. } => Some(attempt),
        _ => None,
    };
    let mut all: BTreeSet<String> = BTreeSet::new();
    for attempt in played.trace.iter().filter_map(|(step, _)| named(step)) {
        if [63, 64, 65, 127].contains(&attempt) {
            all.insert(format!("attempt {attempt:3}: accepted"));
        }
    }
    let refused = parts.records.clone().nth(played.trace.len()).and_then(|record| decode(record).ok());
    if let (Some(attempt), 8) = (refused.as_ref().and_then(named), played.refusal) {
        let [sails, canvas] = DEPARTMENTS.map(|d| played.floor.used(d) == ROWS);
        if [63, 64, 65, 127, 128].contains(&attempt) {
            all.insert(format!("attempt {attempt:3}: refusal 8"));
        }
        if (attempt == 64 && sails) || (attempt == 128 && canvas) {
            all.insert(format!("attempt {attempt:3}: refusal 8, the 64 rows before it used"));
        }
    }
    for what in all {
        note(reached, &what);
    }
}

/// What the departments of a version 2 file reached beside each other.
fn cover_departments(parts: &Parts, played: &Played, reached: &mut Coverage) {
    if parts.version != 2 {
        return;
    }
    let (stations, floor) = (parts.stations(), &played.floor);
    let of = |d: Department| stations.contains(&d);
    if !of(Department::Sails) || !of(Department::Canvas) {
        note(reached, &format!("departments: {:?} alone", stations[0]));
        return;
    }
    let [sails, canvas] = DEPARTMENTS.map(|d| begun(played, d));
    let in_both = |what: &dyn Fn(Said) -> bool| {
        let in_one = |d: &Department| played.trace.iter().any(|(step, said)| what(*said) && belongs(*step, &stations, *d));
        DEPARTMENTS.iter().all(in_one)
    };
    let decided = DEPARTMENTS.map(|d| floor.stations.iter().filter(|s| s.department == d).find_map(|s| s.decided));
    let wait = |b: usize| {
        let waits = |a: &Attempt| a.reads[b] == Request::Waiting || a.writes[b] == Request::Waiting;
        DEPARTMENTS.iter().all(|d| floor.rows.range(d.rows()).any(|(_, a)| waits(a)))
    };
    for (what, holds) in [
        ("both", true),
        ("begun in one alone", sails.is_empty() != canvas.is_empty()),
        ("begun in both", !sails.is_empty() && !canvas.is_empty()),
        ("a round begun in both", sails.iter().any(|(_, round)| canvas.iter().any(|(_, other)| other == round))),
        ("a round served in both at one box", round_shared(played, &stations)),
        ("decided in both", decided[0].is_some() && decided[1].is_some()),
        ("decided in both, two revisions", decided[0].is_some() && decided[1].is_some() && decided[0] != decided[1]),
        ("aborted in both", in_both(&|s| matches!(s, Said::Aborted(_)))),
        ("gone in both", in_both(&|s| matches!(s, Said::Gone(_)))),
        ("requests of both wait at a box that is away", (0..parts.n).any(|b| floor.boxes[b].away && wait(b))),
        ("both served after a box stopped", served_after_stop(played, &stations)),
    ] {
        if holds {
            note(reached, &format!("departments: {what}"));
        }
    }
    cover_refused(parts, played, &stations, reached);
}

/// Whether one box served the same round in both departments.
fn round_shared(played: &Played, stations: &[Department]) -> bool {
    let mut round_of: BTreeMap<usize, u32> = BTreeMap::new();
    let mut served: BTreeSet<(usize, u32, bool)> = BTreeSet::new();
    played.trace.iter().any(|(step, said)| {
        if let (Step::Begin { round, .. }, Said::Begun(row)) = (*step, *said) {
            round_of.insert(row, round);
        }
        let Step::Serve { attempt, at, .. } = *step else { return false };
        let sails = belongs(*step, stations, Department::Sails);
        served.insert((at, round_of[&attempt], sails));
        served.contains(&(at, round_of[&attempt], !sails))
    })
}

/// Whether each department had a request served after a box stopped.
fn served_after_stop(played: &Played, stations: &[Department]) -> bool {
    let Some(stop) = played.trace.iter().position(|(step, _)| matches!(step, Step::Stop { .. })) else { return false };
    let served = |d: &Department| {
        let serve = |(step, _): &(Step, Said)| matches!(step, Step::Serve { .. }) && belongs(*step, stations, *d);
        played.trace[stop..].iter().any(serve)
    };
    DEPARTMENTS.iter().all(served)
}

/// Refusals 12 and 13, by the department of the step; with 12 also how the rows of the other department stand.
fn cover_refused(parts: &Parts, played: &Played, stations: &[Department], reached: &mut Coverage) {
    let Some(Ok(step)) = parts.records.clone().nth(played.trace.len()).map(decode) else { return };
    let floor = &played.floor;
    match (step, played.refusal) {
        (Step::Begin { station, .. }, 12) => {
            let other = DEPARTMENTS[1 - stations[station] as usize];
            let rows = match floor.next_row(other) {
                Some(_) if floor.used(other) < ROWS => "a row of the other unused",
                Some(_) => "a row of the other free",
                None => "no row of the other unused or free",
            };
            note(reached, &format!("departments: refusal 12 to {:?}, {rows}", stations[station]));
        }
        (Step::Serve { attempt, .. }, 13) => {
            note(reached, &format!("departments: refusal 13 to a serve of {:?}", Department::of_row(attempt)));
        }
        _ => {}
    }
}

/// What the files reached that were run without the steps of one department.
fn cover_deletion(played: &Played, left: &Left, out: Department, reached: &mut Coverage) {
    note(reached, &taken_out(out));
    let any = |what: &dyn Fn(&Said) -> bool| left.iter().any(|(_, _, said)| what(said));
    let begins = left.iter().filter(|(_, _, said)| matches!(said, Said::Begun(_))).count();
    for (what, holds) in [
        ("every record of the file accepted", played.refusal == 0),
        ("a box stopped", any(&|said| matches!(said, Said::Stopped(_)))),
        ("a box stopped by kind 6", left.iter().any(|(record, _, _)| record[0] == 6)),
        ("a box stopped by kind 8", left.iter().any(|(record, _, _)| record[0] == 8)),
        ("a box back", any(&|said| matches!(said, Said::Back(_)))),
        ("more than 64 attempts left", begins > ROWS),
        ("more than 64 attempts left, more than 64 taken out", begins > ROWS && begun(played, out).len() > ROWS),
        ("a decision left", any(&|said| matches!(said, Said::Decided(_)))),
        ("a decision of a withdrawal left", any(&|said| *said == Said::Decided(0))),
        ("an abort left", any(&|said| matches!(said, Said::Aborted(_)))),
    ] {
        if holds {
            note(reached, &format!("deletion: {what}"));
        }
    }
}
