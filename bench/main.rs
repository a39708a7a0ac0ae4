//! Times what a proved yard answers beside a plain union-find in Rust, on the same plans and in the same run,
//! and compares the answers. A third column has the yard's own method, a representative for each point, in plain Rust.

use std::hint::black_box;
use std::time::Instant;

const POINTS: usize = 512;
const ROUNDS: usize = 41;
const MANY: usize = 100;

/// A track in the layout of the proved library's struct.
#[repr(C)]
#[derive(Clone, Copy)]
struct Given {
    first: u16,
    second: u16,
    shut: bool,
}

unsafe extern "C" {
    fn yard_words_needed(given: *const Given, len: usize, times: u32, sum: *mut u64) -> u8;
    fn yard_group_count(given: *const Given, len: usize, times: u32, sum: *mut u64) -> u8;
    fn yard_forest(given: *const Given, len: usize, times: u32, flags: *mut bool, flags_len: usize) -> u8;
}

#[derive(Clone, Copy, PartialEq)]
enum Question {
    Groups,
    Words,
    Forest,
}

const QUESTIONS: [(Question, &str); 3] = [(Question::Groups, "groups"), (Question::Words, "words"), (Question::Forest, "forest")];

/// What a question was answered: the number of groups or words, or the flags of the forest.
#[derive(PartialEq, Debug)]
enum Answer {
    Number(u64),
    Flags(Vec<bool>),
}

// ---- the proved library

fn proved(question: Question, plan: &[Given], times: u32, flags: &mut [bool]) -> (u8, u64) {
    let mut sum = 0;
    let status = unsafe {
        match question {
            Question::Groups => yard_group_count(plan.as_ptr(), plan.len(), times, &mut sum),
            Question::Words => yard_words_needed(plan.as_ptr(), plan.len(), times, &mut sum),
            Question::Forest => yard_forest(plan.as_ptr(), plan.len(), times, flags.as_mut_ptr(), flags.len()),
        }
    };
    (status, sum)
}

/// The points as tracks join them.
trait Points {
    fn new() -> Self;
    /// Joins two points, and tells whether they were apart.
    fn join(&mut self, a: u16, b: u16) -> bool;
    /// How many groups the marked points are in, where every joined point is marked.
    fn count(&self, marked: &[bool; POINTS]) -> u64;
}

// ---- plain Rust: union by size, with path halving

struct Sets {
    above: [u16; POINTS],
    size: [u16; POINTS],
}

impl Points for Sets {
    fn new() -> Sets {
        Sets { above: std::array::from_fn(|point| point as u16), size: [1; POINTS] }
    }

    fn join(&mut self, a: u16, b: u16) -> bool {
        let (a, b) = (self.find(a), self.find(b));
        if a == b {
            return false;
        }
        let (low, high) = if self.size[a as usize] < self.size[b as usize] { (a, b) } else { (b, a) };
        self.above[low as usize] = high;
        self.size[high as usize] += self.size[low as usize];
        true
    }

    fn count(&self, marked: &[bool; POINTS]) -> u64 {
        (0..POINTS).filter(|&point| marked[point] && self.above[point] as usize == point).count() as u64
    }
}

impl Sets {
    fn find(&mut self, point: u16) -> u16 {
        let mut at = point;
        while self.above[at as usize] != at {
            let next = self.above[self.above[at as usize] as usize];
            self.above[at as usize] = next;
            at = next;
        }
        at
    }
}

// ---- plain Rust: a representative for each point

struct Reps {
    reps: [u16; POINTS],
}

impl Points for Reps {
    fn new() -> Reps {
        Reps { reps: std::array::from_fn(|point| point as u16) }
    }

    fn join(&mut self, a: u16, b: u16) -> bool {
        let (u, v) = (self.reps[a as usize], self.reps[b as usize]);
        if u == v {
            return false;
        }
        for rep in &mut self.reps {
            if *rep == u {
                *rep = v;
            }
        }
        true
    }

    fn count(&self, marked: &[bool; POINTS]) -> u64 {
        let mut seen = [false; POINTS];
        let mut count = 0;
        for point in 0..POINTS {
            let rep = self.reps[point] as usize;
            if marked[point] && !seen[rep] {
                seen[rep] = true;
                count += 1;
            }
        }
        count
    }
}

// ---- the questions in plain Rust

#[inline(never)]
fn words<P: Points>(plan: &[Given]) -> u64 {
    let mut points = P::new();
    let mut words = 0;
    for one in plan {
        if !one.shut && !points.join(one.first, one.second) {
            words += 1;
        }
    }
    words
}

#[inline(never)]
fn group_count<P: Points>(plan: &[Given]) -> u64 {
    let mut points = P::new();
    let mut touched = [false; POINTS];
    for one in plan {
        if !one.shut {
            touched[one.first as usize] = true;
            touched[one.second as usize] = true;
            points.join(one.first, one.second);
        }
    }
    points.count(&touched)
}

#[inline(never)]
fn forest<P: Points>(plan: &[Given], flags: &mut [bool]) {
    let mut points = P::new();
    for (one, flag) in plan.iter().zip(flags) {
        *flag = !one.shut && points.join(one.first, one.second);
    }
}

fn plain<P: Points>(question: Question, plan: &[Given], times: u32, flags: &mut [bool]) -> u64 {
    let mut sum = 0;
    for _ in 0..times {
        match question {
            Question::Groups => sum += group_count::<P>(black_box(plan)),
            Question::Words => sum += words::<P>(black_box(plan)),
            Question::Forest => forest::<P>(black_box(plan), black_box(&mut *flags)),
        }
    }
    sum
}

// ---- plans

struct Numbers(u64);

impl Numbers {
    fn next(&mut self, below: usize) -> usize {
        self.0 ^= self.0 << 13;
        self.0 ^= self.0 >> 7;
        self.0 ^= self.0 << 17;
        ((self.0 >> 11) % below as u64) as usize
    }
}

fn open(first: usize, second: usize) -> Given {
    Given { first: first as u16, second: second as u16, shut: false }
}

/// Any two points, now and then the same twice, and one track in eight shut.
fn random(tracks: usize, numbers: &mut Numbers) -> Vec<Given> {
    (0..tracks)
        .map(|_| {
            let first = numbers.next(POINTS);
            let second = if numbers.next(16) == 0 { first } else { numbers.next(POINTS) };
            Given { shut: numbers.next(8) == 0, ..open(first, second) }
        })
        .collect()
}

/// From each point to the next, again and again.
fn path(tracks: usize, _: &mut Numbers) -> Vec<Given> {
    (0..tracks).map(|k| open(k % (POINTS - 1), k % (POINTS - 1) + 1)).collect()
}

/// 256 parallel roads, their neighbouring ends joined on either side, again and again.
fn fan(tracks: usize, _: &mut Numbers) -> Vec<Given> {
    (0..tracks)
        .map(|k| match k % 766 {
            k @ 0..256 => open(k, 256 + k),
            k @ 256..511 => open(k - 256, k - 255),
            k => open(k - 255, k - 254),
        })
        .collect()
}

/// 128 groups of four points.
fn groups(tracks: usize, numbers: &mut Numbers) -> Vec<Given> {
    (0..tracks)
        .map(|k| {
            let base = k % 128 * 4;
            open(base + numbers.next(4), base + numbers.next(4))
        })
        .collect()
}

/// A plan with its points renamed.
fn renamed(plan: Vec<Given>, numbers: &mut Numbers) -> Vec<Given> {
    let mut names: Vec<usize> = (0..POINTS).collect();
    for k in (1..POINTS).rev() {
        names.swap(k, numbers.next(k + 1));
    }
    plan.iter().map(|one| Given { shut: one.shut, ..open(names[one.first as usize], names[one.second as usize]) }).collect()
}

const PLANS: [(fn(usize, &mut Numbers) -> Vec<Given>, &str); 4] = [(random, "random"), (path, "path"), (fan, "fan"), (groups, "groups")];
const SIZES: [usize; 4] = [64, 256, 1024, 2048];

// ---- timing

#[derive(Clone, Copy)]
enum Way {
    Proved,
    Sets,
    Reps,
}

/// The value at a share of a list that is put in order.
fn at(values: &mut [f64], share: f64) -> f64 {
    values.sort_by(f64::total_cmp);
    values[((values.len() - 1) as f64 * share).round() as usize]
}

/// The first quartile, the median and the last quartile.
fn quartiles(mut values: Vec<f64>) -> [f64; 3] {
    [at(&mut values, 0.25), at(&mut values, 0.5), at(&mut values, 0.75)]
}

struct Checks {
    passed: usize,
    failed: usize,
}

impl Checks {
    fn see(&mut self, what: &str, holds: bool) {
        if holds {
            self.passed += 1;
        } else {
            self.failed += 1;
            println!("FAILED: {what}");
        }
    }
}

fn answer_of_proved(question: Question, plan: &[Given], times: u32) -> (u8, Answer) {
    let mut flags = vec![false; plan.len()];
    let (status, sum) = proved(question, plan, times, &mut flags);
    (status, if question == Question::Forest { Answer::Flags(flags) } else { Answer::Number(sum) })
}

fn answer_of_plain(question: Question, plan: &[Given], times: u32) -> Answer {
    let mut flags = vec![false; plan.len()];
    let sum = plain::<Sets>(question, plan, times, &mut flags);
    if question == Question::Forest { Answer::Flags(flags) } else { Answer::Number(sum) }
}

fn heading() {
    println!("| question | plan | tracks | proved | union-find | same method | proved / union-find | quartiles | proved / same method |");
    println!("|---|---|---:|---:|---:|---:|---:|---|---:|");
}

/// Times one question in the three ways, on each of some plans so many times, and prints the medians.
fn row(asked: &str, name: &str, tracks: usize, question: Question, plans: &[Vec<Given>], times: u32) {
    let mut flags = vec![false; tracks];
    let each = 1000.0 * f64::from(times) * plans.len() as f64;
    let mut ask = |way: Way, times: u32| {
        let start = Instant::now();
        for plan in plans {
            match way {
                Way::Proved => black_box(proved(question, black_box(plan), times, &mut flags).1),
                Way::Sets => black_box(plain::<Sets>(question, black_box(plan), times, &mut flags)),
                Way::Reps => black_box(plain::<Reps>(question, black_box(plan), times, &mut flags)),
            };
        }
        start.elapsed().as_nanos() as f64 / each
    };
    let mut columns: [Vec<f64>; 5] = Default::default();
    for _ in 0..ROUNDS {
        // the making of the yards, with no answer, is taken off
        let ours = ask(Way::Proved, times) - ask(Way::Proved, 0);
        let sets = ask(Way::Sets, times);
        let reps = ask(Way::Reps, times);
        for (column, value) in columns.iter_mut().zip([ours, sets, reps, ours / sets, ours / reps]) {
            column.push(value);
        }
    }
    let [ours, sets, reps, ratio, same] = columns.map(quartiles);
    println!(
        "| {asked} | {name} | {tracks} | {:.2} | {:.2} | {:.2} | {:.2} | {:.2} to {:.2} | {:.2} |",
        ours[1], sets[1], reps[1], ratio[1], ratio[0], ratio[2], same[1]
    );
}

fn main() {
    let mut checks = Checks { passed: 0, failed: 0 };
    let mut numbers = Numbers(0x9e37_79b9_7f4a_7c15);

    // small and large plans of every kind, among them many at random
    for (question, asked) in QUESTIONS {
        for (make, name) in PLANS {
            for tracks in [0, 1, 2, 3, 10, 64, 255, 256, 257, 766, 1024, 2047, 2048] {
                let plan = make(tracks, &mut numbers);
                let (status, answer) = answer_of_proved(question, &plan, 3);
                checks.see(&format!("{asked} {name} {tracks}"), status == 0 && answer == answer_of_plain(question, &plan, 3));
            }
        }
        for trial in 0..200 {
            let points = 1 + numbers.next(POINTS);
            let plan: Vec<Given> = (0..numbers.next(2049)).map(|_| Given { shut: numbers.next(3) == 0, ..open(numbers.next(points), numbers.next(points)) }).collect();
            let (status, answer) = answer_of_proved(question, &plan, 1);
            checks.see(&format!("{asked} trial {trial}"), status == 0 && answer == answer_of_plain(question, &plan, 1));
        }
        // what is refused, and leaves the answer alone
        checks.see("a point too many", answer_of_proved(question, &[open(0, 512)], 1).0 == 4);
        checks.see("a track too many", answer_of_proved(question, &path(2049, &mut numbers), 1).0 == 5);
    }
    checks.see("flags too few", proved(Question::Forest, &path(4, &mut numbers), 1, &mut [false; 3]).0 == 7);

    println!("One yard, asked again and again: microseconds for one answer, medians of {ROUNDS} rounds");
    heading();
    for (question, asked) in QUESTIONS {
        for (make, name) in PLANS {
            for tracks in SIZES {
                let times = (400_000 / tracks) as u32;
                row(asked, name, tracks, question, &[make(tracks, &mut numbers)], times);
            }
        }
    }
    println!();
    println!("{MANY} yards of a shape, each asked once: microseconds for one answer, medians of {ROUNDS} rounds");
    heading();
    for (question, asked) in QUESTIONS {
        for (make, name) in PLANS {
            for tracks in SIZES {
                let mut one = || renamed(make(tracks, &mut numbers), &mut numbers);
                let plans: Vec<Vec<Given>> = (0..MANY).map(|_| one()).collect();
                row(asked, name, tracks, question, &plans, 1);
            }
        }
    }
    println!("{} passed, {} failed", checks.passed, checks.failed);
    std::process::exit(i32::from(checks.failed != 0));
}
