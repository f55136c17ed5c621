//! write COUNT SEED FOLDER [FILE ..]: holds the writer, called as C calls it, against the reference. 25 x COUNT sets of parts and buffers are
//! written. Then each FILE and each of COUNT generated drill files that is accepted is taken apart and written again: without kind 6 it is
//! the same file, with kind 6 it is turned back with 7. Compared are the refusal, the size, and every byte of the buffer and about it.
mod generate;

use generate::Handed;
use std::collections::BTreeMap;
use std::path::Path;

#[link(name = "drill_file", kind = "static")]
extern "C" {
    fn drill_write(
        buffer: *mut u8,
        buffer_len: usize,
        version: u8,
        n: u8,
        m: u8,
        label: *const u8,
        label_len: usize,
        departments: *const u8,
        departments_len: usize,
        records: *const u8,
        records_len: usize,
        size: *mut usize,
    ) -> u32;
}

/// What a call leaves: the refusal, the size, and the buffer.
type Left = (u32, usize, Vec<u8>);

const ABOUT: usize = 16;

/// What the writer leaves. The buffer stands between bytes that no call may touch.
fn written(h: &Handed) -> Result<Left, String> {
    let about = [0x5A; ABOUT];
    let mut space = [&about, h.buffer.as_slice(), &about].concat();
    let (label, departments, records) = (h.label.clone(), h.departments.clone(), h.records.clone());
    let mut size = usize::MAX;
    let refusal = unsafe {
        drill_write(
            space.as_mut_ptr().add(ABOUT),
            h.buffer.len(),
            h.version,
            h.n,
            h.m,
            label.as_ptr(),
            label.len(),
            departments.as_ptr(),
            departments.len(),
            records.as_ptr(),
            records.len(),
            &mut size,
        )
    };
    if space[..ABOUT] != about || space[ABOUT + h.buffer.len()..] != about {
        return Err("a byte beyond the buffer is changed".to_string());
    }
    if label != h.label || departments != h.departments || records != h.records {
        return Err("a byte of the label, of the departments or of the records is changed".to_string());
    }
    Ok((refusal, size, space[ABOUT..ABOUT + h.buffer.len()].to_vec()))
}

/// What document 02 says it leaves: the file and what stood behind it, or the buffer as it was.
fn expected(h: &Handed) -> Left {
    match reference::write(h.buffer.len(), h.version, h.n, h.m, &h.label, &h.departments, &h.records) {
        Err(refusal) => (refusal as u32, 0, h.buffer.clone()),
        Ok(file) => (0, file.len(), [&file, &h.buffer[file.len().min(h.buffer.len())..]].concat()),
    }
}

fn compare(h: &Handed) -> Result<u32, String> {
    let (there, wanted) = (written(h)?, expected(h));
    if there == wanted {
        return Ok(wanted.0);
    }
    let first = there.2.iter().zip(&wanted.2).position(|(a, b)| a != b);
    Err(format!(
        "expected refusal {}, size {}; written refusal {}, size {}; first other byte {first:?}",
        wanted.0, wanted.1, there.0, there.1
    ))
}

/// What became of a file that is written again.
#[derive(Clone, Copy, PartialEq)]
enum Again {
    NotAccepted,
    Same,
    TurnedBack,
}

/// An accepted file, taken apart and written again: into a buffer of its size, a longer one, and one that is a byte short. With a record of
/// kind 6 it is turned back with 7, whatever the buffer.
fn again(file: &[u8]) -> Result<Again, String> {
    let Ok(parts) = reference::parts(file) else { return Ok(Again::NotAccepted) };
    let records: Vec<u8> = parts.records.clone().flatten().copied().collect();
    let six = parts.records.clone().any(|record| record[0] == 6);
    for room in [file.len(), file.len() + 9, file.len() - 1] {
        let buffer: Vec<u8> = (0..room).map(|at| (at * 7 + 3) as u8).collect();
        let h = Handed {
            buffer,
            version: parts.version,
            n: parts.n as u8,
            m: parts.m as u8,
            label: parts.label.as_bytes().to_vec(),
            departments: parts.departments.to_vec(),
            records: records.clone(),
        };
        compare(&h)?;
        let (refusal, size, left) = written(&h)?;
        let same = refusal == 0 && size == file.len() && left[..size] == *file;
        let turned_back = refusal == if six { 7 } else { 18 } && size == 0 && left == h.buffer;
        if !(if six || room < file.len() { turned_back } else { same }) {
            return Err(format!("written again into {room} bytes, refusal {refusal}, it is not the same file, or is not turned back"));
        }
    }
    Ok(if six { Again::TurnedBack } else { Again::Same })
}

fn fail(folder: &Path, name: &str, file: &[u8], why: &str) -> ! {
    println!("write: {name}: {why}");
    let path = folder.join("written.drill");
    if std::fs::create_dir_all(folder).and_then(|_| std::fs::write(&path, file)).is_ok() {
        println!("write: the file is left at {}", path.display());
    }
    std::process::exit(1);
}

fn main() {
    let words: Vec<String> = std::env::args().collect();
    let count: u64 = words[1].parse().expect("COUNT is a number");
    let seed: u64 = words[2].parse().expect("SEED is a number");
    let folder = Path::new(&words[3]);
    let shipped = words[4..].iter().map(|path| (path.clone(), std::fs::read(path).expect("a FILE can be read")));
    let generated = (0..count).map(|number| (format!("file {number} of seed {seed}"), generate::file(seed, number)));
    let mut times: BTreeMap<u32, u64> = BTreeMap::new();
    for number in 0..25 * count {
        let h = generate::handed(seed, number);
        match compare(&h) {
            Ok(refusal) => *times.entry(refusal).or_insert(0) += 1,
            Err(why) => {
                println!("write: parts {number} of seed {seed}: {why}");
                std::process::exit(1);
            }
        }
    }
    // each answer came, about one time in a hundred or more often
    for refusal in [0, 2, 3, 4, 22, 5, 7, 18] {
        assert!(times.get(&refusal).is_some_and(|t| 100 * t >= 25 * count), "refusal {refusal} came too seldom: {times:?}");
    }
    let (mut same, mut turned_back) = (0, 0);
    for (name, file) in shipped.chain(generated) {
        match again(&file) {
            Ok(came) => (same, turned_back) = (same + (came == Again::Same) as u64, turned_back + (came == Again::TurnedBack) as u64),
            Err(why) => fail(folder, &name, &file, &why),
        }
    }
    println!("write: {same} files written again, {turned_back} turned back for kind 6, {} sets of parts compared", 25 * count);
}
