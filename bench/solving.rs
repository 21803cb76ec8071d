//! The least and the greatest vector by hand in plain Rust: by plain sweeps, and by a crew of seats on shared words.

use crate::projection::{Axis, Projection, Sum};
use crate::schedule::Event;
use std::sync::atomic::{AtomicU64, Ordering::SeqCst};
use std::thread;

/// How a crew solves: with how many halvings it begins, and how many passes over its marks a seat makes at most.
#[derive(Clone, Copy)]
pub struct Method {
    pub shift: u32,
    pub chases: u32,
}

/// What the seats of a crew share: a word and a mark per point.
struct Table {
    words: Vec<AtomicU64>,
    marks: Vec<AtomicU64>,
}

/// The equations of a level on one axis.
pub struct System<'a, S> {
    pub totals: &'a [u64],
    pub projection: &'a Projection<S>,
    pub axis: &'a Axis<S>,
}

/// One shared word for each end.
fn words_of(ends: &[u64]) -> Vec<AtomicU64> {
    ends.iter().map(|end| AtomicU64::new(*end)).collect()
}

/// One mark for each point.
fn marks_of(points: usize) -> Vec<AtomicU64> {
    let bits = |first: usize| u64::MAX >> (64 - (points - first).min(64));
    (0..points)
        .step_by(64)
        .map(|first| AtomicU64::new(bits(first)))
        .collect()
}

/// What a seat did: how many points it relaxed, and how often that moved the point's word.
#[derive(Clone, Copy, Default)]
pub struct Work {
    pub relaxations: u64,
    pub moves: u64,
}

/// Whether a relaxation moved an entry of what the seat has seen, and whether it moved the point's word.
#[derive(Clone, Copy, Default)]
struct Moved {
    seen: bool,
    word: bool,
}

/// Whether `b` stands past `a` on the way up, or down.
fn is_past<const UP: bool>(a: u64, b: u64) -> bool {
    if UP { a < b } else { b < a }
}

impl<S: Sum> System<'_, S> {
    fn start<const UP: bool>(&self) -> &[u64] {
        if UP {
            &self.axis.lows
        } else {
            &self.axis.highs
        }
    }

    /// The weighted mean of a point, rounded down on the way up, and up on the way down.
    ///
    /// # Safety
    /// `i` is a point, and `v` has one entry per point.
    #[inline(always)]
    unsafe fn mean<const UP: bool>(&self, i: usize, v: &[u64]) -> u64 {
        let near = self.projection;
        // SAFETY: the arrays have one entry per point, the starts ascend, and each neighbour is a point.
        unsafe {
            let mut sum = *self.axis.anchored.get_unchecked(i);
            for k in *near.starts.get_unchecked(i)..*near.starts.get_unchecked(i + 1) {
                let entry = *v.get_unchecked(*near.numbers.get_unchecked(k) as usize);
                sum = sum + S::from(*near.weights.get_unchecked(k)) * S::from(entry);
            }
            let total = *self.totals.get_unchecked(i);
            let sum = if UP { sum } else { sum + S::from(total - 1) };
            (sum / S::from(total)).low()
        }
    }

    /// Plain sweeps from one end of the boxes until one changes nothing: the vector, and how many they were.
    pub fn solve<const UP: bool>(&self) -> (Vec<u64>, u64) {
        let mut v = self.start::<UP>().to_vec();
        let mut sweeps = 1;
        while self.sweep::<UP>(&mut v) {
            sweeps += 1;
        }
        (v, sweeps)
    }

    #[inline(never)]
    fn sweep<const UP: bool>(&self, v: &mut [u64]) -> bool {
        let mut moved = false;
        for i in 0..v.len() {
            // SAFETY: the vector has one entry per point.
            unsafe {
                let mean = self.mean::<UP>(i, v);
                let entry = v.get_unchecked_mut(i);
                if is_past::<UP>(*entry, mean) {
                    *entry = mean;
                    moved = true;
                }
            }
        }
        moved
    }

    /// The same vector by a crew of seats, on systems that are halved less and less, and the relaxations of each seat.
    pub fn solve_by_crew<const UP: bool>(
        &self,
        seats: usize,
        method: Method,
    ) -> (Vec<u64>, Vec<u64>) {
        let points = self.totals.len();
        let mut found = vec![if UP { 0 } else { u64::MAX / 2 }; points];
        let mut counts = vec![0; seats];
        for shift in (0..=method.shift).rev() {
            let axis = self.axis.halved::<UP>(shift);
            let halved = System {
                axis: &axis,
                ..*self
            };
            let ends = halved.start::<UP>();
            let doubled = found.iter().zip(ends).map(|(entry, end)| {
                let twice = entry * 2;
                if UP { twice.max(*end) } else { twice.min(*end) }
            });
            let start: Vec<u64> = doubled.collect();
            let (seen, more) = halved.settle_by_crew::<UP>(&start, seats, method.chases);
            found = seen;
            for (count, more) in counts.iter_mut().zip(more) {
                *count += more;
            }
        }
        (found, counts)
    }

    /// The same vector by a crew of seats on one shared word per point, from a start.
    fn settle_by_crew<const UP: bool>(
        &self,
        start: &[u64],
        seats: usize,
        chases: u32,
    ) -> (Vec<u64>, Vec<u64>) {
        const APART: usize = 16;
        let points = start.len();
        let table = Table {
            words: words_of(start),
            marks: marks_of(points),
        };
        // Each seat's view has a margin on both sides, so that no two share a cache line or a pair of them.
        let mut view = vec![0; points + 2 * APART];
        view[APART..APART + points].copy_from_slice(start);
        let mut views = vec![view; seats];
        let take_turn = |k: usize, view: &mut Vec<u64>| {
            let range = (k * points / seats, (k + 1) * points / seats);
            self.take_turn::<UP>(&table, &mut view[APART..APART + points], range, chases)
        };
        if seats == 1 {
            let count = take_turn(0, &mut views[0]);
            return (views[0][APART..APART + points].to_vec(), vec![count]);
        }
        let counts = thread::scope(|scope| {
            let handles: Vec<_> = views
                .iter_mut()
                .enumerate()
                .map(|(k, view)| scope.spawn(move || take_turn(k, view)))
                .collect();
            handles
                .into_iter()
                .map(|handle| handle.join().expect("a seat"))
                .collect()
        });
        (views[0][APART..APART + points].to_vec(), counts)
    }

    /// The same vector by one seat that settles all points, and what it did.
    pub fn settle<const UP: bool>(&self) -> (Vec<u64>, Work) {
        let words = words_of(self.start::<UP>());
        let mut seen = self.start::<UP>().to_vec();
        let mut work = Work::default();
        while self.relax::<UP>(&words, &mut seen, (0, words.len()), &mut work) {}
        (seen, work)
    }

    /// The same vector by a schedule: the events in order on shared words, each by its seat, and then the first seat settles all
    /// points. With it how often each seat moved a word.
    pub fn play<const UP: bool>(&self, seats: usize, events: &[Event]) -> (Vec<u64>, Vec<u64>) {
        let start = self.start::<UP>();
        let words = words_of(start);
        let mut views = vec![start.to_vec(); seats];
        let mut works = vec![Work::default(); seats];
        for event in events {
            let (seat, point) = (event.seat as usize, event.point as usize);
            if seat < seats && point < words.len() {
                let view = &mut views[seat];
                if event.renews {
                    // SAFETY: the point is there, and words and view have one entry per point.
                    unsafe { self.renew::<UP>(&words, view, point, &mut works[seat]) };
                } else {
                    view[point] = words[point].load(SeqCst);
                }
            }
        }
        while self.relax::<UP>(&words, &mut views[0], (0, words.len()), &mut works[0]) {}
        let moves = works.iter().map(|work| work.moves).collect();
        (views.swap_remove(0), moves)
    }

    /// What one seat does: it relaxes its range once, chases the marks of its range, settles its range, and settles all points.
    fn take_turn<const UP: bool>(
        &self,
        table: &Table,
        seen: &mut [u64],
        range: (usize, usize),
        chases: u32,
    ) -> u64 {
        let mut work = Work::default();
        let words = &table.words[..];
        self.relax::<UP>(words, seen, range, &mut work);
        self.chase::<UP>(table, seen, range, chases, &mut work);
        while self.relax::<UP>(words, seen, range, &mut work) {}
        while self.relax::<UP>(words, seen, (0, words.len()), &mut work) {}
        work.relaxations
    }

    /// Takes the mark words of a range of points, pass after pass, and relaxes the points whose marks are found. Where that moved a
    /// point's word, it marks the neighbours.
    #[inline(never)]
    fn chase<const UP: bool>(
        &self,
        table: &Table,
        seen: &mut [u64],
        (from, to): (usize, usize),
        passes: u32,
        work: &mut Work,
    ) {
        let near = self.projection;
        let end = if from < to {
            to.div_ceil(64)
        } else {
            from / 64
        };
        let mut found = true;
        for _ in 0..passes {
            if !std::mem::take(&mut found) {
                break;
            }
            for word in from / 64..end {
                let mut left = table.marks[word].swap(0, SeqCst);
                found |= left != 0;
                while left != 0 {
                    let i = word * 64 + left.trailing_zeros() as usize;
                    left &= left - 1;
                    // SAFETY: only points have marks.
                    let relaxed = unsafe { self.relax_point::<UP>(&table.words, seen, i, work) };
                    work.relaxations += 1;
                    if relaxed.word {
                        for other in &near.numbers[near.starts[i]..near.starts[i + 1]] {
                            table.marks[*other as usize / 64].fetch_or(1 << (other % 64), SeqCst);
                        }
                    }
                }
            }
        }
    }

    /// Relaxes each point of a range once. Whether an entry of what the seat has seen moved.
    #[inline(never)]
    fn relax<const UP: bool>(
        &self,
        words: &[AtomicU64],
        seen: &mut [u64],
        (from, to): (usize, usize),
        work: &mut Work,
    ) -> bool {
        let mut moved = false;
        for i in from..to {
            // SAFETY: the range is one of points.
            moved |= unsafe { self.relax_point::<UP>(words, seen, i, work) }.seen;
        }
        work.relaxations += (to - from) as u64;
        moved
    }

    /// A relaxation loads the words of the neighbours into the seat's view, and then renews the point's word.
    ///
    /// # Safety
    /// `i` is a point, and words and view have one entry per point.
    #[inline(always)]
    unsafe fn relax_point<const UP: bool>(
        &self,
        words: &[AtomicU64],
        seen: &mut [u64],
        i: usize,
        work: &mut Work,
    ) -> Moved {
        let near = self.projection;
        let mut moved = Moved::default();
        // SAFETY: words and view have one entry per point, the starts ascend, and each neighbour is a point.
        unsafe {
            for k in *near.starts.get_unchecked(i)..*near.starts.get_unchecked(i + 1) {
                let other = *near.numbers.get_unchecked(k) as usize;
                let word = words.get_unchecked(other).load(SeqCst);
                moved.seen |= word != *seen.get_unchecked(other);
                *seen.get_unchecked_mut(other) = word;
            }
            let renewed = self.renew::<UP>(words, seen, i, work);
            moved.seen |= renewed.seen;
            moved.word = renewed.word;
        }
        moved
    }

    /// Renews a point's word by the mean of what was seen: a load first, and a fetch only where the mean stands past the word.
    ///
    /// # Safety
    /// `i` is a point, and words and view have one entry per point.
    #[inline(always)]
    unsafe fn renew<const UP: bool>(
        &self,
        words: &[AtomicU64],
        seen: &mut [u64],
        i: usize,
        work: &mut Work,
    ) -> Moved {
        let mut moved = Moved::default();
        // SAFETY: words and view have one entry per point, and `i` is a point.
        unsafe {
            let mean = self.mean::<UP>(i, seen);
            let word = words.get_unchecked(i);
            let mut new = word.load(SeqCst);
            if is_past::<UP>(new, mean) {
                let old = if UP {
                    word.fetch_max(mean, SeqCst)
                } else {
                    word.fetch_min(mean, SeqCst)
                };
                moved.word = is_past::<UP>(old, mean);
                new = if moved.word { mean } else { old };
                work.moves += u64::from(moved.word);
            }
            moved.seen = new != *seen.get_unchecked(i);
            *seen.get_unchecked_mut(i) = new;
        }
        moved
    }
}
