//! Times the labelling of a proved yard beside one in plain Rust, on the same plans and in the same run, and compares
//! the labels, in the kinds X and S. A third column has the proved method in plain Rust.

mod plans;
mod timing;

use plans::{Given, Numbers, POINTS, SIZES, fan, groups, open, path, random, renamed};
use std::fmt::Debug;
use std::hint::black_box;
use std::time::Instant;
use timing::{Checks, MANY, ROUNDS, quartiles};

unsafe extern "C" {
    fn label_xor(given: *const Given, len: usize, words: *const u64, words_len: usize, times: u32, labels: *mut u64, labels_len: usize) -> u8;
    fn label_sum(given: *const Given, len: usize, words: *const u64, words_len: usize, times: u32, labels: *mut u32, labels_len: usize) -> u8;
    fn xor_balances(given: *const Given, len: usize, labels: *const u64, labels_len: usize, balanced: *mut bool) -> u8;
    fn sum_balances(given: *const Given, len: usize, labels: *const u32, labels_len: usize, balanced: *mut bool) -> u8;
}

/// A kind of labels, with the proved calls for it.
trait Kind: Copy + PartialEq + Debug {
    const NAME: &str;
    const ZERO: Self;
    fn plus(self, other: Self) -> Self;
    fn minus(self, other: Self) -> Self;
    fn draw(word: u64) -> Self;
    fn proved(plan: &[Given], words: &[u64], times: u32, labels: &mut [Self]) -> u8;
    fn proved_balances(plan: &[Given], labels: &[Self]) -> (u8, bool);
}

impl Kind for u64 {
    const NAME: &str = "X";
    const ZERO: u64 = 0;

    fn plus(self, other: u64) -> u64 {
        self ^ other
    }

    fn minus(self, other: u64) -> u64 {
        self ^ other
    }

    fn draw(word: u64) -> u64 {
        word
    }

    fn proved(plan: &[Given], words: &[u64], times: u32, labels: &mut [u64]) -> u8 {
        unsafe { label_xor(plan.as_ptr(), plan.len(), words.as_ptr(), words.len(), times, labels.as_mut_ptr(), labels.len()) }
    }

    fn proved_balances(plan: &[Given], labels: &[u64]) -> (u8, bool) {
        let mut balanced = false;
        let status = unsafe { xor_balances(plan.as_ptr(), plan.len(), labels.as_ptr(), labels.len(), &mut balanced) };
        (status, balanced)
    }
}

impl Kind for u32 {
    const NAME: &str = "S";
    const ZERO: u32 = 0;

    fn plus(self, other: u32) -> u32 {
        self.wrapping_add(other)
    }

    fn minus(self, other: u32) -> u32 {
        self.wrapping_sub(other)
    }

    fn draw(word: u64) -> u32 {
        word as u32
    }

    fn proved(plan: &[Given], words: &[u64], times: u32, labels: &mut [u32]) -> u8 {
        unsafe { label_sum(plan.as_ptr(), plan.len(), words.as_ptr(), words.len(), times, labels.as_mut_ptr(), labels.len()) }
    }

    fn proved_balances(plan: &[Given], labels: &[u32]) -> (u8, bool) {
        let mut balanced = false;
        let status = unsafe { sum_balances(plan.as_ptr(), plan.len(), labels.as_ptr(), labels.len(), &mut balanced) };
        (status, balanced)
    }
}

// ---- plain Rust: a union-find for the forest, then a walk over it from each root, and back

struct Sets {
    above: [u16; POINTS],
    size: [u16; POINTS],
}

impl Sets {
    fn new() -> Sets {
        Sets { above: std::array::from_fn(|point| point as u16), size: [1; POINTS] }
    }

    fn find(&mut self, point: u16) -> u16 {
        let mut at = point;
        while self.above[at as usize] != at {
            let next = self.above[self.above[at as usize] as usize];
            self.above[at as usize] = next;
            at = next;
        }
        at
    }

    fn join(&mut self, a: u16, b: u16) -> bool {
        let (a, b) = (self.find(a), self.find(b));
        if a == b {
            return false;
        }
        let (low, high) = if self.size[a as usize] < self.size[b as usize] { (a, b) } else { (b, a) };
        self.above[low as usize] = high;
        self.size[high as usize] += self.size[low as usize];
        true
    }
}

const NONE: u16 = u16::MAX;

/// The tracks of the forest at each point: the first one, and for each end of a track the next one there.
struct Forest {
    first: [u16; POINTS],
    next: [[u16; 2]; POINTS],
    ends: [[u16; 2]; POINTS],
    tracks: [u16; POINTS],
    count: usize,
}

impl Forest {
    fn new() -> Forest {
        Forest { first: [NONE; POINTS], next: [[NONE; 2]; POINTS], ends: [[0; 2]; POINTS], tracks: [0; POINTS], count: 0 }
    }

    /// A branch more; its two half-edges are 2k and 2k + 1.
    fn add(&mut self, track: usize, one: Given) {
        let k = self.count;
        self.count += 1;
        self.tracks[k] = track as u16;
        self.ends[k] = [one.first, one.second];
        for (side, point) in [one.first, one.second].into_iter().enumerate() {
            self.next[k][side] = self.first[point as usize];
            self.first[point as usize] = (2 * k + side) as u16;
        }
    }
}

/// Writes the labelling, or answers 7 or 8.
#[inline(never)]
fn label<K: Kind>(plan: &[Given], words: &[u64], labels: &mut [K]) -> Result<usize, u8> {
    if labels.len() != plan.len() {
        return Err(7);
    }
    let mut points = Sets::new();
    let mut forest = Forest::new();
    let mut chords = [0u16; 2048];
    let mut needed = 0;
    for (track, &one) in plan.iter().enumerate() {
        if one.shut {
            continue;
        }
        if points.join(one.first, one.second) {
            forest.add(track, one);
        } else {
            chords[needed] = track as u16;
            needed += 1;
        }
    }
    if words.len() < needed {
        return Err(8);
    }
    labels.fill(K::ZERO);
    // what leaves each point less what enters it
    let mut excess = [K::ZERO; POINTS];
    for (&track, &word) in chords[..needed].iter().zip(words) {
        let one = plan[track as usize];
        let drawn = K::draw(word);
        labels[track as usize] = drawn;
        excess[one.first as usize] = excess[one.first as usize].plus(drawn);
        excess[one.second as usize] = excess[one.second as usize].minus(drawn);
    }
    // the half-edges from parents to children, parents first
    let mut order = [0u16; POINTS];
    let mut found = 0;
    let mut seen = [false; POINTS];
    let mut queue = [0u16; POINTS];
    for root in 0..POINTS {
        if seen[root] || forest.first[root] == NONE {
            continue;
        }
        seen[root] = true;
        queue[0] = root as u16;
        let (mut head, mut tail) = (0, 1);
        while head < tail {
            let point = queue[head];
            head += 1;
            let mut half = forest.first[point as usize];
            while half != NONE {
                let (k, side) = ((half / 2) as usize, (half % 2) as usize);
                let child = forest.ends[k][1 - side];
                if !seen[child as usize] {
                    seen[child as usize] = true;
                    order[found] = half;
                    found += 1;
                    queue[tail] = child;
                    tail += 1;
                }
                half = forest.next[k][side];
            }
        }
    }
    for &half in order[..found].iter().rev() {
        let (k, side) = ((half / 2) as usize, (half % 2) as usize);
        let (parent, child) = (forest.ends[k][side] as usize, forest.ends[k][1 - side] as usize);
        // a track from the parent enters the child
        let owed = if side == 0 { excess[child] } else { K::ZERO.minus(excess[child]) };
        labels[forest.tracks[k] as usize] = owed;
        excess[parent] = excess[parent].plus(excess[child]);
    }
    Ok(needed)
}

// ---- plain Rust: the proved method, with the higher root linked to the lower, chains of tracks, and leaves taken off

/// For each point the highest open track with that end there, and for each track the next lower one, each one higher; 0 ends a chain.
struct Chains {
    heads: [u16; POINTS],
    links: [u16; 2048],
}

impl Chains {
    fn of(plan: &[Given], end: fn(&Given) -> u16) -> Chains {
        let mut chains = Chains { heads: [0; POINTS], links: [0; 2048] };
        for (track, one) in plan.iter().enumerate() {
            if !one.shut {
                let head = &mut chains.heads[end(one) as usize];
                chains.links[track] = *head;
                *head = track as u16 + 1;
            }
        }
        chains
    }

    fn sum_at<K: Kind>(&self, labels: &[K], point: u16) -> K {
        let mut sum = K::ZERO;
        let mut at = self.heads[point as usize];
        while at != 0 {
            let track = at as usize - 1;
            sum = sum.plus(labels[track]);
            at = self.links[track];
        }
        sum
    }
}

fn find(parents: &mut [u16; POINTS], point: u16) -> u16 {
    let mut at = point;
    while parents[at as usize] != at {
        let next = parents[parents[at as usize] as usize];
        parents[at as usize] = next;
        at = next;
    }
    at
}

/// For each track whether it is in the forest.
fn forest_flags(plan: &[Given]) -> [bool; 2048] {
    let mut parents: [u16; POINTS] = std::array::from_fn(|point| point as u16);
    let mut flags = [false; 2048];
    for (one, flag) in plan.iter().zip(&mut flags) {
        if !one.shut {
            let (u, v) = (find(&mut parents, one.first), find(&mut parents, one.second));
            if u != v {
                parents[u.max(v) as usize] = u.min(v);
                *flag = true;
            }
        }
    }
    flags
}

/// Writes the labelling, or answers 7 or 8.
#[inline(never)]
fn label_alike<K: Kind>(plan: &[Given], words: &[u64], labels: &mut [K]) -> Result<usize, u8> {
    if labels.len() != plan.len() {
        return Err(7);
    }
    let left = forest_flags(plan);
    let mut counts = [0u16; POINTS];
    let mut names = [0u16; POINTS];
    for (track, one) in plan.iter().enumerate() {
        if left[track] {
            for point in [one.first, one.second] {
                counts[point as usize] += 1;
                names[point as usize] ^= track as u16;
            }
        }
    }
    let needed = plan.iter().zip(&left).filter(|(one, left)| !one.shut && !**left).count();
    if words.len() < needed {
        return Err(8);
    }
    let mut used = 0;
    for (track, one) in plan.iter().enumerate() {
        labels[track] = if !one.shut && !left[track] {
            used += 1;
            K::draw(words[used - 1])
        } else {
            K::ZERO
        };
    }
    let leaving = Chains::of(plan, |one| one.first);
    let entering = Chains::of(plan, |one| one.second);
    for start in 0..POINTS as u16 {
        let mut at = start;
        while counts[at as usize] == 1 {
            let track = names[at as usize] as usize;
            let one = plan[track];
            let (out, into) = (leaving.sum_at(labels, at), entering.sum_at(labels, at));
            labels[track] = if one.first == at { into.minus(out) } else { out.minus(into) };
            for point in [one.first, one.second] {
                counts[point as usize] -= 1;
                names[point as usize] ^= track as u16;
            }
            at = if one.first == at { one.second } else { one.first };
        }
    }
    Ok(needed)
}

/// Whether labels balance.
fn balances<K: Kind>(plan: &[Given], labels: &[K]) -> bool {
    let mut excess = [K::ZERO; POINTS];
    for (one, &label) in plan.iter().zip(labels) {
        if one.shut && label != K::ZERO {
            return false;
        }
        excess[one.first as usize] = excess[one.first as usize].plus(label);
        excess[one.second as usize] = excess[one.second as usize].minus(label);
    }
    labels.len() == plan.len() && excess.iter().all(|&sum| sum == K::ZERO)
}

// ---- plans

/// Loops, and tracks between two points.
fn loops_and_parallels(tracks: usize, numbers: &mut Numbers) -> Vec<Given> {
    (0..tracks)
        .map(|k| {
            let point = k % 16;
            open(point, if numbers.next(2) == 0 { point } else { point ^ 1 })
        })
        .collect()
}

/// One point to all others, again and again.
fn star(tracks: usize, _: &mut Numbers) -> Vec<Given> {
    (0..tracks).map(|k| open(1 + k % (POINTS - 1), 0)).collect()
}

type Make = fn(usize, &mut Numbers) -> Vec<Given>;

const PLANS: [(Make, &str); 6] = [(random, "random"), (path, "path"), (fan, "fan"), (groups, "groups"), (star, "star"), (loops_and_parallels, "loops")];

/// Some words.
fn some_words(count: usize, numbers: &mut Numbers) -> Vec<u64> {
    (0..count).map(|_| numbers.word()).collect()
}

// ---- comparing

/// Compares the labels of one plan in one kind: those of enough words, one word too few, and a list of another length.
fn compare<K: Kind>(checks: &mut Checks, what: &str, plan: &[Given], numbers: &mut Numbers) {
    let what = format!("{} {what} {}", K::NAME, plan.len());
    let words = some_words(2048, numbers);
    let before: Vec<K> = words.iter().map(|&word| K::draw(!word)).take(plan.len()).collect();
    let mut expected = before.clone();
    let needed = label(plan, &words, &mut expected).expect("enough words");
    let mut alike = before.clone();
    checks.see(&format!("{what}: same method"), label_alike(plan, &words, &mut alike) == Ok(needed) && alike == expected);
    let mut labels = before.clone();
    let status = K::proved(plan, &words[..needed], 1, &mut labels);
    checks.see(&format!("{what}: labels"), status == 0 && labels == expected);
    let status = K::proved(plan, &words, 3, &mut labels);
    checks.see(&format!("{what}: more words, three times"), status == 0 && labels == expected);
    checks.see(&format!("{what}: balanced"), balances(plan, &labels) && K::proved_balances(plan, &labels) == (0, true));
    let mut untouched = before.clone();
    let status = K::proved(plan, &words, 0, &mut untouched);
    checks.see(&format!("{what}: no time"), status == 0 && untouched == before);
    if needed > 0 {
        let status = K::proved(plan, &words[..needed - 1], 1, &mut untouched);
        let too_few = label(plan, &words[..needed - 1], &mut expected) == Err(8);
        checks.see(&format!("{what}: too few words"), status == 8 && too_few && untouched == before);
    }
    if !plan.is_empty() {
        let status = K::proved(plan, &words, 1, &mut untouched[1..]);
        checks.see(&format!("{what}: a short list"), status == 7 && untouched == before);
        // a wrong label balances just where the track is an open loop
        let track = numbers.next(plan.len());
        labels[track] = labels[track].plus(K::draw(1));
        let one = plan[track];
        let harmless = !one.shut && one.first == one.second;
        checks.see(&format!("{what}: one label changed"), balances(plan, &labels) == harmless && K::proved_balances(plan, &labels) == (0, harmless));
    }
}

fn compare_kind<K: Kind>(checks: &mut Checks, numbers: &mut Numbers) {
    for (make, name) in PLANS {
        for tracks in [0, 1, 2, 3, 10, 64, 255, 256, 257, 766, 1024, 2047, 2048] {
            let plan = make(tracks, numbers);
            compare::<K>(checks, name, &plan, numbers);
            compare::<K>(checks, name, &renamed(plan, numbers), numbers);
        }
    }
    for _ in 0..200 {
        let points = 1 + numbers.next(POINTS);
        let plan: Vec<Given> = (0..numbers.next(2049)).map(|_| Given { shut: numbers.next(3) == 0, ..open(numbers.next(points), numbers.next(points)) }).collect();
        compare::<K>(checks, "trial", &plan, numbers);
    }
    let mut labels = vec![K::ZERO; 2049];
    checks.see("a point too many", K::proved(&[open(0, 512)], &[], 1, &mut labels[..1]) == 4);
    checks.see("a track too many", K::proved(&path(2049, numbers), &[], 1, &mut labels) == 5);
}

// ---- timing

/// Microseconds for one labelling of some plans, each labelled so many times.
fn timed(plans: &[Vec<Given>], times: u32, mut work: impl FnMut(&[Given])) -> f64 {
    let start = Instant::now();
    for plan in plans {
        work(black_box(plan));
    }
    start.elapsed().as_nanos() as f64 / (1000.0 * f64::from(times) * plans.len() as f64)
}

/// Times the labelling of some plans in the three ways, each so many times, and prints the medians.
fn row<K: Kind>(name: &str, tracks: usize, plans: &[Vec<Given>], times: u32, words: &[u64]) {
    let mut labels = vec![K::ZERO; tracks];
    let mut columns: [Vec<f64>; 5] = Default::default();
    for _ in 0..ROUNDS {
        let mut proved = |again: u32| {
            timed(plans, times, |plan| {
                black_box(K::proved(plan, words, again, black_box(&mut labels)));
            })
        };
        // the making of the yards, with no labels, is taken off
        let ours = proved(times) - proved(0);
        let mut plain = |label: fn(&[Given], &[u64], &mut [K]) -> Result<usize, u8>| {
            timed(plans, times, |plan| {
                for _ in 0..times {
                    let _ = black_box(label(black_box(plan), black_box(words), black_box(&mut labels)));
                }
            })
        };
        let (plain, alike) = (plain(label), plain(label_alike));
        for (column, value) in columns.iter_mut().zip([ours, plain, alike, ours / plain, ours / alike]) {
            column.push(value);
        }
    }
    let [ours, plain, alike, ratio, same] = columns.map(quartiles);
    println!(
        "| {} | {name} | {tracks} | {:.2} | {:.2} | {:.2} | {:.2} | {:.2} to {:.2} | {:.2} |",
        K::NAME, ours[1], plain[1], alike[1], ratio[1], ratio[0], ratio[2], same[1]
    );
}

fn heading() {
    println!("| kind | plan | tracks | proved | plain Rust | same method | proved / plain | quartiles | proved / same method |");
    println!("|---|---|---:|---:|---:|---:|---:|---|---:|");
}

fn again_and_again<K: Kind>(numbers: &mut Numbers) {
    let words = some_words(2048, numbers);
    for (make, name) in PLANS {
        for tracks in SIZES {
            row::<K>(name, tracks, &[make(tracks, numbers)], (200_000 / tracks) as u32, &words);
        }
    }
}

fn each_once<K: Kind>(numbers: &mut Numbers) {
    let words = some_words(2048, numbers);
    for (make, name) in PLANS {
        for tracks in SIZES {
            let plans: Vec<Vec<Given>> = (0..MANY).map(|_| renamed(make(tracks, numbers), numbers)).collect();
            row::<K>(name, tracks, &plans, 1, &words);
        }
    }
}

fn main() {
    let mut checks = Checks::new();
    let mut numbers = Numbers(0x9e37_79b9_7f4a_7c15);
    compare_kind::<u64>(&mut checks, &mut numbers);
    compare_kind::<u32>(&mut checks, &mut numbers);

    println!("One yard, labelled again and again: microseconds for one labelling, medians of {ROUNDS} rounds");
    heading();
    again_and_again::<u64>(&mut numbers);
    again_and_again::<u32>(&mut numbers);
    println!();
    println!("{MANY} yards of a shape, each labelled once: microseconds for one labelling, medians of {ROUNDS} rounds");
    heading();
    each_once::<u64>(&mut numbers);
    each_once::<u32>(&mut numbers);
    checks.end();
}
