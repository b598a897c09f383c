//! The library beside the reference, call by call: result, answer, labels and every byte of the
//! table, and that nothing else was written; a preview beside the call on a copy of the table. `calls [--calls N] [--seed S] [--plant FAULT]`.
//! Prints what was called and answered; fails at the first difference, or where too little was
//! seen. A planted fault must make it fail, and so must `--plant Idle`: one call, over and over.

use std::path::Path;
use std::process::ExitCode;
use std::sync::atomic::{AtomicPtr, Ordering};

use vtoc_tests::beside::{both, Rooms};
use vtoc_tests::call::{Buffers, Call, Manager, Reference};
use vtoc_tests::cases::sequences;
use vtoc_tests::coverage::Coverage;
use vtoc_tests::desk::Row;
use vtoc_tests::every_date::{self, Counts};
use vtoc_tests::faulty::{Faulty, FAULTS};
use vtoc_tests::generate::around;
use vtoc_tests::generate::damage::{damage, DAMAGES};
use vtoc_tests::generate::date_rows;
use vtoc_tests::generate::grids;
use vtoc_tests::generate::last_track;
use vtoc_tests::generate::rng::Rng;
use vtoc_tests::generate::session::{Origin, Session, Trial};
use vtoc_tests::generate::shapes::Shape;
use vtoc_tests::generate::wrapped::{self, Wrapped};
use vtoc_tests::library::Library;
use vtoc_tests::replay::Player;
use vtoc_tests::short::{extend, release, scratch, tracks};
use vtoc_tests::volumes::{many_extents, many_names, medium, name, small};

/// Calls in all where no number is given.
const CALLS: usize = 250_000;
/// Of so many volumes, one comes from elsewhere, and one is made for extends that join.
const ELSEWHERE: usize = 6;
const TOUCHING: usize = 4;
/// Calls on such a one: after a few more there is little left to join.
const TOUCHING_CALLS: usize = 60;
/// Tables that look sound where sums wrap, of each kind for each sound one.
const WRAPPED: usize = 2;
/// Calls in each life of a volume of 65,535 tracks.
const FULL_CALLS: usize = 150;
/// What `--plant` takes besides a fault of the library: a run that sees next to nothing.
const IDLE: &str = "Idle";

/// The call being made, for `past_a_buffer`.
static CURRENT: AtomicPtr<Call> = AtomicPtr::new(std::ptr::null_mut());

extern "C" {
    fn signal(number: i32, handler: extern "C" fn(i32)) -> usize;
    fn _exit(status: i32) -> !;
}

/// Says which call read or wrote a page that it may not, and ends the program.
extern "C" fn past_a_buffer(_: i32) {
    // SAFETY: the call is borrowed by the function that is making it.
    let call = unsafe { CURRENT.load(Ordering::Relaxed).as_ref() };
    println!("DIFFERENCE: a read or write past a lent buffer\n  {call:02X?}");
    unsafe { _exit(1) }
}

fn watch_for_signals() {
    const SIGSEGV: i32 = 11;
    // SAFETY: the handler ends the program.
    unsafe { signal(SIGSEGV, past_a_buffer) };
}

/// Both sides, and what they were asked.
struct Beside<'a, M> {
    library: &'a M,
    coverage: Coverage,
    rooms: Rooms,
    sides: Sides,
    calls: usize,
}

/// At which end of its room each buffer lies: at random, or, for a library with a planted fault,
/// so that a byte written after the table or before the answer is seen and does not end the run.
enum Sides {
    Any(Rng),
    Planted,
}

impl<'a, M: Manager> Beside<'a, M> {
    fn new(library: &'a M, sides: Sides) -> Beside<'a, M> {
        Beside { library, coverage: Coverage::default(), rooms: Rooms::new(), sides, calls: 0 }
    }

    /// Makes a call of both and counts it; the table as it was left.
    fn call(
        &mut self, call: &Call, buffers: &Buffers, origin: Origin, place: &str,
    ) -> Result<Vec<u8>, String> {
        let sides = match &mut self.sides {
            Sides::Any(rng) => rng.word(),
            Sides::Planted => 0b10,
        };
        let rooms = &mut self.rooms;
        CURRENT.store((call as *const Call).cast_mut(), Ordering::Relaxed);
        let answered = both(self.library, call, buffers, rooms, sides).map_err(|difference| {
            format!("{difference}\n  {place}, call {}: {call:02X?}", self.calls)
        })?;
        self.calls += 1;
        let (result, after) = (answered.result, answered.buffers);
        let (before, answer) = (&buffers.table, &after.answer);
        self.coverage.count(call, origin, result, before, &after.table, answer);
        Ok(after.table)
    }

    /// Scripted sequences: Volume A, blunders, refusals, chains, damaged tables.
    fn scripted(&mut self) -> Result<(), String> {
        for sequence in sequences() {
            let mut table = vec![];
            for row in &sequence.desk.rows {
                match row {
                    Row::Made { call, before, after, .. } => {
                        let buffers = Buffers::new(before.clone(), 24, 280);
                        self.call(call, &buffers, Origin::Live, sequence.title)?;
                        table.clone_from(after);
                    }
                    Row::Put { patches } => {
                        patches.iter().for_each(|&(at, byte)| table[at] = byte);
                    }
                    Row::Hurt { patches, call, .. } => {
                        let mut buffers = Buffers::new(table.clone(), 24, 280);
                        patches.iter().for_each(|&(at, byte)| buffers.table[at] = byte);
                        self.call(call, &buffers, Origin::Changed, sequence.title)?;
                    }
                    Row::Sized { table: len, answer, labels, call, .. } => {
                        let mut buffers = Buffers::new(table.clone(), *answer, *labels);
                        buffers.table.resize(*len, 0);
                        self.call(call, &buffers, Origin::Changed, sequence.title)?;
                    }
                    Row::Listed { .. } | Row::Parts { .. } => {}
                }
            }
        }
        Ok(())
    }

    /// The stored recording, through the library; the table is its own from call to call.
    fn recorded(&mut self) -> Result<(), String> {
        let path = Path::new(env!("CARGO_MANIFEST_DIR")).join("../crates/replay/stdin");
        let recording = std::fs::read(&path).map_err(|e| format!("{}: {e}", path.display()))?;
        let (mut one, mut other) = (Player::new(self.library), Player::new(&Reference));
        for (k, record) in recording.as_chunks().0.iter().enumerate() {
            let (is, must) = (one.play(record), other.play(record));
            if is != must || one.table != other.table {
                let [is, must] = [is, must].map(|line| String::from_utf8_lossy(&line).into_owned());
                return Err(format!("record {k} of crates/replay/stdin\n  {is}  {must}"));
            }
        }
        Ok(())
    }

    fn grids(&mut self) -> Result<(), String> {
        let grids = [
            ("lengths", grids::lengths()),
            ("bytes of names", grids::name_bytes()),
            ("amounts", grids::amounts()),
            ("options", grids::options()),
            ("TTRs", grids::ttrs()),
            ("elsewhere", grids::elsewhere()),
            ("joins", grids::joins()),
            ("geometries", grids::geometries()),
            ("previews", grids::previews()),
            ("geometries that wrap", around::geometries()),
            ("amounts that wrap", around::amounts()),
            ("the last track", last_track::rows()),
        ];
        grids.into_iter().try_for_each(|(place, rows)| self.rows(place, rows))?;
        self.dates()
    }

    fn rows(&mut self, place: &str, rows: Vec<grids::Row>) -> Result<(), String> {
        let mut rows = rows.iter();
        rows.try_for_each(|(call, lent)| self.call(call, lent, Origin::Probe, place).map(drop))
    }

    fn dates(&mut self) -> Result<(), String> {
        self.rows("forms of dates", date_rows::forms())?;
        self.rows("expiry dates", date_rows::scratches())
    }

    /// Large and worn volumes with each kind of damage, a call aimed at the whole one and its preview.
    fn damaged(&mut self, rng: &mut Rng) -> Result<(), String> {
        let tables = [small(), medium(), many_names(), many_extents(), grids::sixteen()];
        for table in &tables {
            for (&kind, turn) in DAMAGES.iter().cycle().zip(0..3 * DAMAGES.len()) {
                let Some(hurt) = damage(rng, table, kind) else { continue };
                let mut session = Session::on(rng.word(), table, Shape::Cylinders);
                let trial = session.next_trial();
                let buffers = Buffers { table: hurt, ..trial.buffers };
                for call in trial.call.preview().iter().chain([&trial.call]) {
                    self.call(call, &buffers, Origin::Changed, &format!("{kind:?} {turn}"))?;
                }
            }
        }
        Ok(())
    }

    /// Tables that look sound where sums wrap at 65,536: LSPACE and the other calls in turn, on each.
    fn wrapped(&mut self) -> Result<(), String> {
        let others = calls_of_any_table();
        let (mut turn, mut outcome) = (others.iter().cycle(), Ok(()));
        wrapped::every(WRAPPED, |Wrapped { kind, table }| {
            let buffers = Buffers::new(table.clone(), 24, 280);
            for call in [Some(&Call::Lspace), turn.next()].into_iter().flatten() {
                if outcome.is_ok() {
                    let place = format!("{kind:?}");
                    outcome = self.call(call, &buffers, Origin::Changed, &place).map(drop);
                }
            }
        });
        outcome
    }

    /// Lives of volumes of 65,535 tracks.
    fn full_volumes(&mut self) -> Result<(), String> {
        for (table, seed) in wrapped::full_volumes().iter().zip(1..) {
            for shape in [Shape::Cylinders, Shape::Stretched] {
                self.life(Session::on(seed, table, shape), FULL_CALLS, "65,535 tracks")?;
            }
        }
        Ok(())
    }

    /// A volume's life: most calls stay, the table that the library left is the next one's. Many have
    /// their preview before them.
    fn life(&mut self, session: Session, calls: usize, place: &str) -> Result<(), String> {
        let mut session = session.with_previews().with_dates();
        for _ in 0..calls {
            let trial = session.next_trial();
            let Trial { call, buffers, origin } = &trial;
            let after = self.call(call, buffers, *origin, place)?;
            session.keep(&trial, after);
        }
        Ok(())
    }

    fn run(&mut self, calls: usize, seed: u64) -> Result<(), String> {
        let mut rng = Rng::new(seed);
        self.scripted()?;
        self.recorded()?;
        self.grids()?;
        self.wrapped()?;
        self.full_volumes()?;
        self.damaged(&mut rng)?;
        for (table, place) in [
            (medium(), "medium"),
            (many_names(), "many names"),
            (many_extents(), "many extents"),
            (grids::sixteen(), "sixteen extents"),
            (grids::tight(), "tight"),
        ] {
            for shape in [Shape::Cylinders, Shape::Worn] {
                self.life(Session::on(rng.word(), &table, shape), 300, place)?;
            }
        }
        let mut volumes = 0;
        while self.calls < calls {
            volumes += 1;
            let seed = rng.word();
            let session = match volumes {
                _ if volumes % ELSEWHERE == 0 => Session::elsewhere(seed),
                _ if volumes % TOUCHING == 0 => Session::touching(seed),
                _ => Session::new(seed),
            };
            let most = match session.shape {
                Shape::Large => 60,
                Shape::Touching => TOUCHING_CALLS,
                _ => 250,
            };
            let place = format!("session {seed}, {:?}", session.shape);
            self.life(session, most.min(calls - self.calls), &place)?;
        }
        Ok(())
    }

    /// One call, over and over: nothing differs, and next to nothing is seen.
    fn idle(&mut self, calls: usize) -> Result<(), String> {
        let buffers = Buffers::new(small(), 24, 280);
        (0..calls)
            .try_for_each(|_| self.call(&Call::Lspace, &buffers, Origin::Live, IDLE).map(drop))
    }
}

/// One of each call but initialise and LSPACE; the sets have these names in the tables that wrap.
fn calls_of_any_table() -> Vec<Call> {
    let mut calls = vec![];
    for text in ["WRAPPED.N0", "DRAFT.N0"] {
        let old = || name(text).to_vec();
        let named = [extend(text), release(text, 0, 1), scratch(text), tracks("NEW", 1, 1)];
        calls.extend(named.iter().filter_map(Call::preview));
        calls.extend(named);
        calls.extend([
            Call::Rename { old: old(), new: name("NEW").to_vec() },
            Call::Obtain { name: old() },
        ]);
    }
    calls
}

/// Each fault planted in the library must be noticed within a short run.
fn notices(fault: vtoc_tests::faulty::Fault) -> bool {
    let library = Faulty { manager: &Library, fault };
    let mut beside = Beside::new(&library, Sides::Planted);
    let special = [Session::elsewhere(1), Session::of_shape(1, Shape::Brink)];
    let mut sessions = (1..=6).map(Session::new).chain(special);
    let mut touching = (1..=60).map(Session::touching);
    sessions.any(|session| beside.life(session, 300, "planted").is_err())
        || touching.any(|session| beside.life(session, 40, "planted").is_err())
        || beside.dates().is_err()
}

/// Every form of a date, through the library and the reference alone.
fn every_date(library: &impl Manager) -> Result<(), String> {
    let Counts { stored, packed, dates, scratches, unexpired } = every_date::compare(library)?;
    println!("dates: {stored} stored and {packed} packed forms, {dates} of them dates, alike");
    println!("dates: {scratches} scratches, {unexpired} of them refused 13, alike");
    Ok(())
}

struct Arguments {
    calls: usize,
    seed: u64,
    plant: Option<String>,
}

fn arguments() -> Option<Arguments> {
    let mut found = Arguments { calls: CALLS, seed: 1, plant: None };
    let mut words = std::env::args().skip(1);
    while let Some(word) = words.next() {
        let value = words.next()?;
        match word.as_str() {
            "--calls" => found.calls = value.parse().ok()?,
            "--seed" => found.seed = value.parse().ok()?,
            "--plant" => found.plant = Some(value),
            _ => return None,
        }
    }
    Some(found)
}

fn report<M: Manager>(
    library: &M, sides: Sides, calls: usize, seed: u64, is_idle: bool,
) -> ExitCode {
    let mut beside = Beside::new(library, sides);
    let outcome = if is_idle { beside.idle(calls) } else { beside.run(calls, seed) };
    print!("{}", beside.coverage);
    println!("calls {}, seed {seed}", beside.calls);
    if let Err(difference) = outcome {
        println!("DIFFERENCE: {difference}");
        return ExitCode::FAILURE;
    }
    if !is_idle {
        if let Err(difference) = every_date(library) {
            println!("DIFFERENCE: {difference}");
            return ExitCode::FAILURE;
        }
    }
    let few = beside.coverage.too_few(calls);
    if !few.is_empty() {
        println!("too few: {}", few.join(", "));
        return ExitCode::FAILURE;
    }
    println!("all alike: results, answers, labels, tables; nothing else was written");
    ExitCode::SUCCESS
}

fn main() -> ExitCode {
    let Some(Arguments { calls, seed, plant }) = arguments() else {
        eprintln!("usage: calls [--calls N] [--seed S] [--plant FAULT]");
        return ExitCode::from(2);
    };
    watch_for_signals();
    let sides = Sides::Any(Rng::new(seed));
    if let Some(text) = plant {
        if text == IDLE {
            return report(&Library, sides, calls, seed, true);
        }
        let Some(&fault) = FAULTS.iter().find(|fault| format!("{fault:?}") == text) else {
            eprintln!("faults: {IDLE}, {FAULTS:?}");
            return ExitCode::from(2);
        };
        return report(&Faulty { manager: &Library, fault }, Sides::Planted, calls, seed, false);
    }
    for fault in FAULTS {
        if !notices(fault) {
            println!("a planted fault was not noticed: {fault:?}");
            return ExitCode::FAILURE;
        }
    }
    println!("planted faults {}, all noticed", FAULTS.len());
    report(&Library, sides, calls, seed, false)
}
