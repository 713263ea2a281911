//! A morning at the picture desk: card readers load frames while cullers throw frames out, each a worker that one event loop
//! moves on by one small step, in a random order.
//!
//!     cargo run --offline --example desk -- [--seed N] [FOLDER]
//!
//! Without a folder the morning is made up. With one, each file is a frame: its capture text is looked for in its first
//! 64 KB, its camera is the place of its subfolder (the folder itself is 0), and its number the last digits of its name.
use pannuqreik::{read_text, Answer, Fields, Key, Moment, Refusal, Table, Work, Worker, MOST_WORDS};
use std::collections::{BTreeSet, VecDeque};
use std::io::{IsTerminal, Read, Write};
use std::path::{Path, PathBuf};
use std::{env, fs, io};

const READERS: usize = 9;
const CULLERS: usize = 6;

/// A seeded stream of numbers (xorshift).
struct Random(u64);

impl Random {
    fn below(&mut self, n: usize) -> usize {
        self.0 ^= self.0 << 13;
        self.0 ^= self.0 >> 7;
        self.0 ^= self.0 << 17;
        (self.0 % n as u64) as usize
    }
}

/// A morning of four cameras, two of which write no leading zero: what their cards hold, in the order of the cards.
fn made_up(random: &mut Random) -> Vec<Key> {
    let mut frames = Vec::new();
    for number in 0..1500 {
        let camera = number % 4;
        let (hour, minute, second) = (9 + random.below(3), random.below(60), random.below(60));
        let text = match camera % 2 {
            0 => format!("2024:06:15 {hour}:{minute:02}:{second:02}\0"),
            _ => format!("2024:06:15 {hour:02}:{minute:02}:{second:02}\0"),
        };
        let moment = read_text(text.as_bytes(), 0, text.len()).expect("a text of the forms");
        frames.push(key_of(moment, camera as u64, number as u64).expect("fields in range"));
    }
    frames
}

fn key_of(moment: Moment, camera: u64, number: u64) -> Result<Key, Refusal> {
    Key::pack(Fields { moment, hundredth: 0, camera, number })
}

/// The first capture text in a block of metadata.
fn find_text(block: &[u8]) -> Option<Moment> {
    let lengths = [20, 19];
    (0..block.len()).find_map(|place| lengths.iter().find_map(|length| read_text(block, place, *length).ok()))
}

fn frame_of(path: &Path, camera: u64) -> Option<Key> {
    let mut block = Vec::new();
    fs::File::open(path).ok()?.take(1 << 16).read_to_end(&mut block).ok()?;
    let name = path.file_stem()?.to_str()?;
    let digits = name.rsplit(|c: char| !c.is_ascii_digit()).find(|part| !part.is_empty()).unwrap_or("0");
    let number = digits.parse::<u64>().ok()? % 10000;
    key_of(find_text(&block)?, camera, number).ok()
}

/// The frames of a folder and its subfolders; files without a capture text are named.
fn in_folder(folder: &Path) -> io::Result<Vec<Key>> {
    let (mut frames, mut cameras) = (Vec::new(), vec![folder.to_path_buf()]);
    let mut inside: Vec<PathBuf> = fs::read_dir(folder)?.map(|e| e.map(|e| e.path())).collect::<Result<_, _>>()?;
    inside.sort();
    cameras.extend(inside.into_iter().filter(|p| p.is_dir()));
    for (camera, folder) in cameras.iter().enumerate() {
        for entry in fs::read_dir(folder)? {
            let path = entry?.path();
            match frame_of(&path, camera as u64) {
                Some(key) => frames.push(key),
                None if path.is_file() => eprintln!("{}: no capture time", path.display()),
                None => {}
            }
        }
    }
    Ok(frames)
}

/// The event loop's side of a worker: what it has still to do, and what it is doing.
struct Turn {
    worker: Worker,
    work: Work,
    todo: VecDeque<Key>,
    doing: Option<Key>,
}

/// What is counted.
#[derive(Default)]
struct Counts {
    steps: u64,
    restarts: u64,
    sweeps: u64,
    done: usize,
    no_room: usize,
}

struct Desk<'a> {
    table: Table<'a>,
    turns: Vec<Turn>,
    counts: Counts,
    /// frames that a culler will throw out, once they are loaded
    marked: BTreeSet<Key>,
    /// what the set has to be, by the answers alone
    kept: BTreeSet<Key>,
    full: bool,
}

impl Desk<'_> {
    /// One small step of one worker; an idle one begins its next frame, unless a sweep is waited for.
    fn move_on(&mut self, i: usize) -> Result<(), Refusal> {
        let turn = &mut self.turns[i];
        let Some(key) = turn.doing else {
            if let (false, Some(key)) = (self.full, turn.todo.front().copied()) {
                turn.worker.start(&mut self.table, turn.work, key)?;
                turn.doing = turn.todo.pop_front();
            }
            return Ok(());
        };
        let answer = turn.worker.step(&mut self.table)?;
        self.counts.steps += 1;
        match answer {
            Answer::Going => {
                self.counts.restarts += turn.worker.at_root() as u64;
                return Ok(());
            }
            Answer::Full => {
                turn.todo.push_front(key);
                self.full = true;
            }
            Answer::Yes | Answer::No => self.counts.done += 1,
        }
        turn.doing = None;
        match (answer, turn.work) {
            (Answer::Yes, Work::Insert) => self.loaded(key),
            (Answer::Yes, Work::Remove) => assert!(self.kept.remove(&key)),
            _ => {}
        }
        Ok(())
    }

    fn loaded(&mut self, key: Key) {
        assert!(self.kept.insert(key));
        if self.marked.contains(&key) {
            self.turns[READERS + key.number() as usize % CULLERS].todo.push_back(key);
        }
    }

    /// Where an insert found no free slot: once nobody is busy, deleted slots become free. If there are none, and nobody will
    /// throw a frame out, what is left does not fit.
    fn sweep_if_due(&mut self) -> Result<(), Refusal> {
        if !self.full || self.turns.iter().any(|t| t.doing.is_some()) {
            return Ok(());
        }
        let before = self.table.words().to_vec();
        self.table.sweep()?;
        self.counts.sweeps += 1;
        self.full = false;
        let (readers, cullers) = self.turns.split_at_mut(READERS);
        if self.table.words() == before && cullers.iter().all(|t| t.todo.is_empty()) {
            self.counts.no_room += readers.iter_mut().map(|t| t.todo.drain(..).count()).sum::<usize>();
        }
        Ok(())
    }

    fn busy(&self) -> bool {
        self.turns.iter().any(|t| t.doing.is_some() || !t.todo.is_empty())
    }
}

fn progress(done: usize, all: usize, last: &mut usize) {
    let percent = done * 100 / all.max(1);
    if percent != *last && io::stderr().is_terminal() {
        *last = percent;
        let bar: String = (0..40).map(|i| if i * 100 < percent * 40 { '#' } else { '.' }).collect();
        eprint!("\r[{bar}] {percent:3} %{}", if percent == 100 { "\n" } else { "" });
        let _ = io::stderr().flush();
    }
}

/// Readers share the frames.
fn turns(frames: &[Key]) -> Vec<Turn> {
    let idle = |work| Turn { worker: Worker::new(), work, todo: VecDeque::new(), doing: None };
    let mut turns: Vec<Turn> = (0..READERS).map(|_| idle(Work::Insert)).chain((0..CULLERS).map(|_| idle(Work::Remove))).collect();
    for (i, key) in frames.iter().enumerate() {
        turns[i % READERS].todo.push_back(*key);
    }
    turns
}

fn report(desk: &Desk, frames: usize) -> Result<(), Refusal> {
    let mut buffer = vec![0; desk.table.slots()];
    let listed = desk.table.list(0, u64::MAX, &mut buffer)?;
    for (place, number) in listed.iter().enumerate().take(5) {
        println!("{:4} {}", place + 1, Key::new(*number)?);
    }
    println!("  .. {} frames of {frames} in the set, first {}", listed.len(), desk.table.first(0)?);
    assert!(listed.iter().eq(desk.kept.iter().map(|k| k.number()).collect::<Vec<_>>().iter()), "a frame was lost or came back");
    println!("the table is {}", if desk.table.check()? { "sound" } else { "NOT SOUND" });
    let c = &desk.counts;
    println!("{} works, {} steps, {} restarts, {} sweeps", c.done, c.steps, c.restarts, c.sweeps);
    if c.no_room > 0 {
        println!("{} frames did not fit", c.no_room);
    }
    Ok(())
}

fn main() -> Result<(), Box<dyn std::error::Error>> {
    let (mut seed, mut folder) = (5, None);
    let mut args = env::args().skip(1);
    while let Some(arg) = args.next() {
        match arg.as_str() {
            "--seed" => seed = args.next().ok_or("--seed wants a number")?.parse()?,
            _ => folder = Some(PathBuf::from(arg)),
        }
    }
    let mut random = Random(seed | 1 << 40);
    let frames = match folder {
        Some(folder) => in_folder(&folder)?,
        None => made_up(&mut random),
    };
    let mut words = vec![0; MOST_WORDS];
    let table = Table::fresh(&mut words)?;
    let marked: BTreeSet<Key> = frames.iter().copied().filter(|_| random.below(3) > 0).collect();
    let all = frames.len() + marked.len();
    let (turns, counts, kept) = (turns(&frames), Counts::default(), BTreeSet::new());
    let mut desk = Desk { table, turns, counts, marked, kept, full: false };
    let mut last = 101;
    while desk.busy() {
        let i = random.below(desk.turns.len());
        desk.move_on(i)?;
        desk.sweep_if_due()?;
        progress(desk.counts.done, all, &mut last);
    }
    if frames.is_empty() {
        println!("no frames");
        return Ok(());
    }
    report(&desk, frames.len())?;
    Ok(())
}
