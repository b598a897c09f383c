//! `recordings DIR` writes the stored recording, DIR/stdin, and what the program replay must print
//! for it, DIR/stdout. `recordings DIR --check` compares with what is there. `recordings --space DIR
//! [--check]` does the same for DIR/space.table and DIR/space.calls, the worked example of
//! docs/OPERATORS.md. `recordings --program PROGRAM` runs the program on other recordings and compares
//! what it prints, and the tables that it leaves.

use std::fs::{self, File};
use std::io::Write;
use std::path::{Path, PathBuf};
use std::process::{Command, ExitCode, Stdio};
use std::thread;

use vtoc_tests::call::{Call, Reference, NO_DATE, NO_OPTION};
use vtoc_tests::recording::{recording, Recording};
use vtoc_tests::replay::{record, Player, LINE, RECORD};
use vtoc_tests::volumes::{cut_cylinders, name, ATTRIBUTES};

/// The stored recording, and the most bytes that it may take with its lines.
const SEED: u64 = 1;
const CALLS: usize = 34;
const MOST: usize = 300_000;

fn stored() -> Result<Recording, String> {
    let made = recording(SEED, CALLS);
    let size = made.records.len() + made.lines.len();
    println!("{} records, {size} bytes with their lines", made.calls());
    let missing = made.coverage.missing(&[]);
    if !missing.is_empty() {
        return Err(format!("not seen: {}", missing.join(", ")));
    }
    if size > MOST {
        return Err(format!("more than {MOST} bytes"));
    }
    Ok(made)
}

/// Writes the files, or compares them with what is there.
fn write(directory: &Path, files: [(&str, &[u8]); 2], check: bool) -> Result<(), String> {
    for (file, bytes) in files {
        let path = directory.join(file);
        let shown = path.display();
        if !check {
            fs::write(&path, bytes).map_err(|error| format!("{shown}: {error}"))?;
        } else if fs::read(&path).ok().as_deref() != Some(bytes) {
            return Err(format!("{shown} is not what this program makes"));
        }
    }
    Ok(())
}

fn store(directory: &Path, check: bool) -> Result<(), String> {
    let made = stored()?;
    write(directory, [("stdin", &made.records), ("stdout", &made.lines)], check)
}

/// The space inquiry, a request for one cylinder, and one for tracks.
fn space_calls(table_len: usize, tracks: u32) -> Vec<u8> {
    let allocate = |text, kind, amount| Call::Allocate {
        name: name(text).to_vec(),
        attributes: ATTRIBUTES.to_vec(),
        kind,
        start: 0,
        amount,
        secondary: 0,
        option: NO_OPTION,
        expiry: NO_DATE.to_vec(),
    };
    let calls = [Call::Lspace, allocate("CYL", 1, 1), allocate("TRK", 0, tracks)];
    calls.map(|call| record(&call, table_len, 24, 0).expect("right lengths fit")).concat()
}

fn store_space(directory: &Path, check: bool) -> Result<(), String> {
    let table = cut_cylinders(7, 5, 4, 1, 2, 3);
    let calls = space_calls(table.len(), 15);
    write(directory, [("space.table", &table), ("space.calls", &calls)], check)
}

/// Files for the program to read and to make, in a directory of their own.
struct Place(PathBuf);

impl Place {
    fn new() -> Result<Place, String> {
        let path = std::env::temp_dir().join(format!("recordings-{}", std::process::id()));
        fs::create_dir(&path).map_err(|error| format!("{}: {error}", path.display()))?;
        Ok(Place(path))
    }

    fn file(&self, name: &str) -> String {
        self.0.join(name).display().to_string()
    }

    fn holds(&self, name: &str) -> Option<Vec<u8>> {
        fs::read(self.0.join(name)).ok()
    }

    fn put(&self, name: &str, bytes: &[u8]) -> Result<(), String> {
        fs::write(self.0.join(name), bytes).map_err(|error| format!("{name}: {error}"))
    }

    fn remove(&self, name: &str) -> Result<(), String> {
        fs::remove_file(self.0.join(name)).map_err(|error| format!("{name}: {error}"))
    }
}

impl Drop for Place {
    fn drop(&mut self) {
        drop(fs::remove_dir_all(&self.0));
    }
}

/// Runs the program on an input; what it prints, and what it says on standard error.
fn run(
    program: &str, words: &[&str], input: &[u8], output: Stdio,
) -> Result<(Vec<u8>, Vec<u8>), String> {
    let mut command = Command::new(program);
    command.args(words).stdin(Stdio::piped()).stdout(output).stderr(Stdio::piped());
    let mut child = command.spawn().map_err(|error| format!("{program}: {error}"))?;
    let mut stdin = child.stdin.take().expect("a pipe");
    let bytes = input.to_vec();
    let feeder = thread::spawn(move || drop(stdin.write_all(&bytes)));
    let output = child.wait_with_output().map_err(|error| error.to_string())?;
    feeder.join().expect("the input is fed");
    if !output.status.success() {
        return Err(format!("{program}: {}", output.status));
    }
    Ok((output.stdout, output.stderr))
}

/// What the program prints for an input, of which it must not complain.
fn printed(program: &str, words: &[&str], input: &[u8]) -> Result<Vec<u8>, String> {
    let (lines, said) = run(program, words, input, Stdio::piped())?;
    match &said[..] {
        [] => Ok(lines),
        _ => Err(format!("{words:?}: {}", String::from_utf8_lossy(&said))),
    }
}

fn must(holds: bool, what: &str) -> Result<(), String> {
    holds.then_some(()).ok_or_else(|| what.to_string())
}

/// The bytes of the table that the last record lends, which are those of a line's digest.
fn left(player: &Player<Reference>, records: &[u8]) -> Vec<u8> {
    let (records, _) = records.as_chunks::<RECORD>();
    let last = records.last().map_or(0, |record| u16::from_be_bytes([record[6], record[7]]));
    player.table[..usize::from(last)].to_vec()
}

/// A record cut short at the end is left out, however little is missing.
fn cut_short(program: &str) -> Result<(), String> {
    // LSPACE, by its operation alone: it has a line, of the result 2.
    let two = [8; 2 * RECORD];
    for length in [0, 1, 64, 128, RECORD - 2, RECORD - 1, RECORD, RECORD + 1, 2 * RECORD - 1] {
        let lines = printed(program, &[], &two[..length])?.len() / LINE;
        must(lines == length / RECORD, &format!("{lines} lines for {length} bytes"))?;
    }
    Ok(())
}

/// With END the same lines, and END is the table that the last record left; with START too, where
/// the recording is cut in two.
fn leaves(program: &str, made: &Recording, place: &Place) -> Result<(), String> {
    let (start, end) = (&place.file("start"), &place.file("end"));
    let (records, lines) = (&made.records, &made.lines);
    let count = records.len() / RECORD;
    for at in [0, 1, count / 3, count - 1, count] {
        let (before, after) = records.split_at(at * RECORD);
        let (lines_before, lines_after) = lines.split_at(at * LINE);
        let mut player = Player::new(&Reference);
        player.play_all(before);
        must(printed(program, &[end], before)? == lines_before, "END: other lines")?;
        let is_left = place.holds("end") == Some(left(&player, before));
        must(is_left, &format!("END: another table after {at} records"))?;
        place.remove("end")?;

        place.put("start", &player.table)?;
        player.play_all(after);
        must(printed(program, &[start, end], after)? == lines_after, "START END: other lines")?;
        let is_left = place.holds("end") == Some(left(&player, after));
        must(is_left, &format!("START END: another table from record {at} on"))?;
        must(place.holds("start").is_some_and(|bytes| bytes.len() == 65_536), "START changed")?;
        place.remove("end")?;
    }
    Ok(())
}

/// Where START or END cannot be had, nothing is played and no file is made or changed; where a
/// line cannot be printed, END stays empty.
fn refuses(program: &str, place: &Place) -> Result<(), String> {
    let table = cut_cylinders(7, 5, 4, 1, 2, 3);
    let calls = space_calls(table.len(), 15);
    place.put("start", &table)?;
    place.put("empty", b"")?;
    place.put("taken", b"an older copy")?;
    let [start, empty, taken, none, end] =
        ["start", "empty", "taken", "none", "end"].map(|name| place.file(name));
    let cases: [&[&str]; 6] = [
        &[&taken],
        &[&start, &taken],
        &[&none, &end],
        &[&empty, &end],
        &[&place.file("no/end")],
        &[&start, &end, "more"],
    ];
    for words in cases {
        let (lines, said) = run(program, words, &calls, Stdio::piped())?;
        must(lines.is_empty() && !said.is_empty(), &format!("{words:?}: is played"))?;
        must(place.holds("end").is_none(), &format!("{words:?}: END is made"))?;
        must(place.holds("taken").as_deref() == Some(b"an older copy"), "a file is written over")?;
    }
    let full = File::options().write(true).open("/dev/full").map_err(|error| error.to_string())?;
    let (_, said) = run(program, &[&start, &end], &calls, full.into())?;
    must(!said.is_empty(), "nothing is said of a line that could not be printed")?;
    must(place.holds("end").as_deref() == Some(b""), "END is written though a line is missing")?;
    place.remove("end")?;
    // Files of at most 1,024 bytes: the table has 1,120.
    let limited = "trap '' XFSZ; ulimit -f 1; exec \"$0\" \"$@\"";
    let words = ["-c", limited, program, &start, &end];
    let (lines, said) = run("bash", &words, &calls, Stdio::piped())?;
    must(lines.len() == 3 * LINE && !said.is_empty(), "nothing is said of an END that is cut")?;
    must(place.holds("end").is_none(), "a part of the table is left")
}

/// The figures of docs/OPERATORS.md: 198 cylinders are free by length, and not one is granted.
fn cut_in_two(program: &str, place: &Place) -> Result<(), String> {
    let table = cut_cylinders(404, 19, 39, 1, 12, 198);
    place.put("start", &table)?;
    let words = [&*place.file("start"), &*place.file("end")];
    let lines = printed(program, &words, &space_calls(table.len(), 180))?;
    let lines = String::from_utf8_lossy(&lines).into_owned();
    let answers: Vec<&str> = lines.lines().map(|line| &line[..22]).collect();
    // 198 cylinders, 3,366 tracks, 198 extents, 1 cylinder and .. in the longest; 9; five pieces.
    let expected = ["08 00 00C60D2600C60001", "02 09 A5A5A5A5A5A5A5A5", "02 00 00B4050014002400"];
    must(answers == expected, &format!("198 free cylinders: {lines}"))?;
    place.remove("end")
}

fn compare(program: &str) -> Result<(), String> {
    let place = Place::new()?;
    let mut records = 0;
    for seed in 2..12 {
        let mut made = recording(seed, 100);
        if seed < 5 {
            leaves(program, &made, &place)?;
        }
        // A record cut short at the end is left out.
        made.records.extend(vec![8; 37 * seed as usize % RECORD]);
        records += made.calls();
        if printed(program, &[], &made.records)? != made.lines {
            return Err(format!("recording {seed}: the lines differ"));
        }
    }
    cut_short(program)?;
    refuses(program, &place)?;
    cut_in_two(program, &place)?;
    println!("replayed {records} records, all alike; and the tables left");
    Ok(())
}

fn main() -> ExitCode {
    let words: Vec<String> = std::env::args().skip(1).collect();
    let words: Vec<&str> = words.iter().map(String::as_str).collect();
    let outcome = match words[..] {
        ["--program", program] => compare(program),
        ["--space", directory] => store_space(Path::new(directory), false),
        ["--space", directory, "--check"] => store_space(Path::new(directory), true),
        [directory] => store(Path::new(directory), false),
        [directory, "--check"] => store(Path::new(directory), true),
        _ => Err("usage: recordings [--space] DIR [--check] | recordings --program PROGRAM".into()),
    };
    match outcome {
        Ok(()) => ExitCode::SUCCESS,
        Err(error) => {
            eprintln!("{error}");
            ExitCode::FAILURE
        }
    }
}
