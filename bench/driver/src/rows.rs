//! Rows of the tables: a task of ours beside its peers and beside ten times as much, all of them run in turn, so that what
//! else the machine does meets all of them alike.

use std::hint::black_box;

/// How often each task is run, in turn with the others.
const TURNS: usize = 5;

/// What a run of a task takes at least; a shorter one is repeated.
const LEAST_SECONDS: f64 = 0.03;

/// How much is made at once for calls that use it up.
const FRESH: usize = 64;

/// The head of a table of rows.
pub const HEAD: &str = "| Task | time | peer | its time | ratio | growth |\n|---|---|---|---|---|---|";

/// The processor time of this thread in seconds.
fn processor_seconds() -> f64 {
    let mut time = libc::timespec { tv_sec: 0, tv_nsec: 0 };
    // SAFETY: a time to write to.
    let status = unsafe { libc::clock_gettime(libc::CLOCK_THREAD_CPUTIME_ID, &mut time) };
    assert_eq!(status, 0, "the clock of the thread");
    time.tv_sec as f64 + time.tv_nsec as f64 / 1e9
}

/// What a run takes of it, in seconds.
pub fn seconds_of(run: impl FnOnce()) -> f64 {
    let start = processor_seconds();
    run();
    processor_seconds() - start
}

/// What is timed: it tells the seconds that so many repetitions take.
pub struct Task<'a>(Box<dyn FnMut(usize) -> f64 + 'a>);

impl<'a> Task<'a> {
    /// A call, by processor time.
    pub fn call<T>(mut call: impl FnMut() -> T + 'a) -> Self {
        Task(Box::new(move |repeats| seconds_of(|| (0..repeats).for_each(|_| drop(black_box(call()))))))
    }

    /// A call that uses up what is made for it. Neither making nor freeing that is timed.
    pub fn call_on<T>(mut make: impl FnMut() -> T + 'a, mut call: impl FnMut(&mut T) + 'a) -> Self {
        Task(Box::new(move |repeats| {
            let mut seconds = 0.0;
            for done in (0..repeats).step_by(FRESH) {
                let mut fresh: Vec<T> = (done..repeats.min(done + FRESH)).map(|_| make()).collect();
                seconds += seconds_of(|| fresh.iter_mut().for_each(|it| call(black_box(it))));
            }
            seconds
        }))
    }

    /// What tells its seconds itself.
    pub fn told(mut run: impl FnMut() -> f64 + 'a) -> Self {
        Task(Box::new(move |repeats| (0..repeats).map(|_| run()).sum()))
    }

    // So many repetitions that they take the least time.
    fn repeats(&mut self) -> usize {
        let mut repeats = 1;
        while self.0(repeats) < LEAST_SECONDS {
            repeats *= 2;
        }
        repeats
    }
}

/// A line of a table for each peer.
pub struct Row<'a> {
    pub name: String,
    pub ours: Task<'a>,
    pub peers: Vec<(&'a str, Task<'a>)>,
    /// The same over ten times as much.
    pub tenfold: Option<Task<'a>>,
}

impl Row<'_> {
    /// Runs all of it and prints the lines, where the name has the text in `ROWS`, which is for single rows.
    pub fn print(self) {
        if std::env::var("ROWS").is_ok_and(|text| !self.name.contains(&text)) {
            return;
        }
        let (names, peers): (Vec<_>, Vec<_>) = self.peers.into_iter().unzip();
        let tasks: Vec<Task> = [self.ours].into_iter().chain(peers).chain(self.tenfold).collect();
        let times = times_in_turn(tasks);
        let ours = &times[0];
        let growth = match times.get(names.len() + 1) {
            Some(tenfold) => spread(&ratios(tenfold, ours).map(|it| it / 10.0)),
            None => "-".into(),
        };
        for (peer, theirs) in names.iter().zip(&times[1..]) {
            let (name, time, their_time) = (&self.name, duration(median(ours)), duration(median(theirs)));
            let ratio = spread(&ratios(ours, theirs));
            println!("| {name} | {time} | {peer} | {their_time} | {ratio} | {growth} |");
        }
    }
}

type Times = [f64; TURNS];

fn times_in_turn(mut tasks: Vec<Task>) -> Vec<Times> {
    let repeats: Vec<usize> = tasks.iter_mut().map(Task::repeats).collect();
    let mut times = vec![[0.0; TURNS]; tasks.len()];
    for turn in 0..TURNS {
        for ((task, &repeats), times) in tasks.iter_mut().zip(&repeats).zip(&mut times) {
            times[turn] = task.0(repeats) / repeats as f64;
        }
    }
    times
}

// The ratio of each turn.
fn ratios(times: &Times, peer: &Times) -> Times {
    std::array::from_fn(|turn| times[turn] / peer[turn])
}

fn median(times: &Times) -> f64 {
    sorted(times)[TURNS / 2]
}

fn sorted(times: &Times) -> Times {
    let mut sorted = *times;
    sorted.sort_by(f64::total_cmp);
    sorted
}

// The median, the least and the greatest, in two digits at least.
fn spread(ratios: &Times) -> String {
    let sorted = sorted(ratios);
    let [least, median, greatest] = [0, TURNS / 2, TURNS - 1].map(|i| sorted[i]);
    let places = if median < 0.1 { (1.0 - median.log10().floor()) as usize } else { 2 };
    format!("{median:.places$} ({least:.places$} to {greatest:.places$})")
}

/// A time in three digits.
fn duration(seconds: f64) -> String {
    let (unit, number) = [("s", 1.0), ("ms", 1e3), ("µs", 1e6)]
        .map(|(unit, parts)| (unit, seconds * parts))
        .into_iter()
        .find(|(_, number)| *number >= 1.0)
        .unwrap_or(("ns", seconds * 1e9));
    let places = match number {
        100.0.. => 0,
        10.0.. => 1,
        _ => 2,
    };
    format!("{number:.places$} {unit}")
}
