//! Words damaged between the calls of a run: one or several, near the limits that document 01 names, mostly where the next
//! step reads.

use super::honest::{Manner, Recorder};
use super::{graphs, lent_for, small_sizes, Case};
use crate::draw::Draw;
use crate::engine::Limits;
use crate::memory::{
    List, Lists, Memory, Step, COUNT, CURSOR, END_WORDS, HEAD, HELD, PHASE, POINTER, READ, ROW_WORDS, TAIL,
};

/// What a kind of job has to say of words to be damaged.
pub trait Damaged: Lists {
    /// The lists, those whose words the steps read more often.
    const READ_MORE: &'static [List];

    /// A place of the list that a worker's next step may read.
    fn read_next(&self, draw: &mut Draw, list: List, k: usize) -> Option<usize>;

    /// A word near the limits of its list.
    fn word_for(&self, draw: &mut Draw, list: List, place: usize, p: usize, k: usize) -> u32;

    /// Every word that begin would write is drawn within its limits; the steps' writes then keep them mostly so.
    fn draw_all(&mut self, draw: &mut Draw, p: usize, k: usize);
}

const LISTS: [List; 18] = [
    List::Rows,
    List::Rows,
    List::Rows,
    List::Rows,
    List::Run,
    List::Run,
    List::Ends,
    List::Ends,
    List::Counters,
    List::Rings,
    List::Buffers,
    List::SuccStarts,
    List::Succs,
    List::Degrees,
    List::Weights,
    List::PredStarts,
    List::Preds,
    List::Executed,
];

/// A run of up to `most` tasks: a few accepted steps, damage, steps by all workers, and mostly the words put back; at the end
/// of the run another begin.
pub fn between_calls<M: Damaged>(draw: &mut Draw, limits: Limits, most: usize) -> Case<M> {
    let graph = graphs::any_within(draw, limits, most);
    let (p, k) = small_sizes(draw, limits, &graph);
    let mut recorder = Recorder::<M>::new(limits, lent_for(draw, graph, p, k), p, k);
    recorder.begin();
    let manner = Manner::drawn(draw);
    for _ in 0..draw.between(4, 24) {
        let steps = draw.below(12);
        if !recorder.go(draw, &manner, steps) {
            recorder.begin();
        }
        let mut old = match draw.below(8) {
            0 => large_counters(draw, &mut recorder),
            1 => sound_ends(draw, &mut recorder),
            _ => several(draw, &mut recorder),
        };
        recorder.every_step(draw, 32);
        if draw.below(16) == 0 {
            recorder.begin();
        }
        if draw.below(8) != 0 {
            while let Some((list, place, word)) = old.pop() {
                recorder.write(list, place, word);
            }
        }
    }
    recorder.case()
}

/// Worker 0 has filled all its rings and meets 11; damage that comes before it or behind it, and its Release again.
pub fn at_full_rings<M: Damaged>(draw: &mut Draw, limits: Limits) -> Case<M> {
    let (p, k) = (draw.between(1, 4), draw.between(2, 3));
    let full = p * k;
    let root = vec![Vec::new()];
    let successors = vec![vec![0]; full + draw.between(1, 3)];
    let graph = graphs::weighed(draw, &[root, successors].concat());
    let mut recorder = Recorder::<M>::new(limits, lent_for(draw, graph, p, k), p, k);
    recorder.begin();
    for step in [Step::Fetch, Step::Start, Step::Complete] {
        recorder.step(0, step);
    }
    for _ in 0..full {
        recorder.step(0, Step::Release);
    }
    for _ in 0..16 {
        recorder.step(0, Step::Release);
        let list = draw.pick(&[
            List::Weights,
            List::Run,
            List::Ends,
            List::Counters,
            List::Degrees,
            List::Rows,
        ]);
        let old = damage_in(draw, &mut recorder, list);
        recorder.step(0, Step::Release);
        if let Some((list, place, word)) = old {
            recorder.write(list, place, word);
        }
    }
    recorder.every_step(draw, 16);
    recorder.case()
}

/// No begin: every word is drawn, mostly within its limits, then steps by all workers.
pub fn everywhere<M: Damaged>(draw: &mut Draw, limits: Limits) -> Case<M> {
    let graph = graphs::any_within(draw, limits, 12);
    let (p, k) = small_sizes(draw, limits, &graph);
    let mut memory: M = lent_for(draw, graph, p, k);
    if memory.n() > 0 {
        memory.draw_all(draw, p, k);
    }
    let mut recorder = Recorder::<M>::new(limits, memory, p, k);
    for _ in 0..draw.between(1, 6) {
        recorder.every_step(draw, 64);
        damage(draw, &mut recorder);
    }
    recorder.case()
}

/// A word that was written over, and its place.
pub type Old = (List, usize, u32);

fn several<M: Damaged>(draw: &mut Draw, recorder: &mut Recorder<M>) -> Vec<Old> {
    let words = draw.pick(&[1, 1, 1, 1, 2, 3, 20]);
    (0..words).filter_map(|_| damage(draw, recorder)).collect()
}

/// Every counter is at or near its limit but within it, so that the sums pass 32 bits.
fn large_counters<M: Damaged>(draw: &mut Draw, recorder: &mut Recorder<M>) -> Vec<Old> {
    let limit: i32 = 1 << 30;
    let sign = draw.pick(&[1, 1, -1]);
    let places = 0..recorder.memory.length(List::Counters);
    let mut write = |place| {
        let value = draw.pick(&[limit, limit, limit, limit - 1, 0, -limit]) * sign;
        let old = recorder.write(List::Counters, place, value as u32)?;
        Some((List::Counters, place, old))
    };
    places.filter_map(&mut write).collect()
}

/// The ends of a ring as they would be after other appends and takes: any head, any count up to K, and the tail they lead to.
fn sound_ends<M: Damaged>(draw: &mut Draw, recorder: &mut Recorder<M>) -> Vec<Old> {
    let k = recorder.k;
    let ring = draw.below(recorder.p * recorder.p);
    let (head, some) = (draw.below(k), draw.below(k + 1));
    let count = draw.pick(&[0, k, some]);
    let words = [(HEAD, head), (TAIL, (head + count) % k), (COUNT, count)];
    let mut write = |(place, word): (usize, usize)| {
        let place = END_WORDS * ring + place;
        let old = recorder.write(List::Ends, place, word as u32)?;
        Some((List::Ends, place, old))
    };
    words.into_iter().filter_map(&mut write).collect()
}

/// Writes one word, and answers where it stands and the one that was there.
fn damage<M: Damaged>(draw: &mut Draw, recorder: &mut Recorder<M>) -> Option<Old> {
    let list = draw.pick(M::READ_MORE);
    damage_in(draw, recorder, list)
}

pub fn damage_in<M: Damaged>(draw: &mut Draw, recorder: &mut Recorder<M>, list: List) -> Option<Old> {
    let length = recorder.memory.words(list);
    if length == 0 {
        return None;
    }
    let (p, k) = (recorder.p, recorder.k);
    let place = place_in(draw, list, length, &recorder.memory, k);
    let word = recorder.memory.word_for(draw, list, place, p, k);
    let old = recorder.write(list, place, word)?;
    Some((list, place, old))
}

/// Any place, or one that a worker's next step may read.
fn place_in<M: Damaged>(draw: &mut Draw, list: List, length: usize, memory: &M, k: usize) -> usize {
    let any = draw.below(length);
    if draw.below(4) == 0 {
        return any;
    }
    let read_next = memory.read_next(draw, list, k);
    read_next.filter(|&place| place < length).unwrap_or(any)
}

impl Damaged for Memory {
    const READ_MORE: &'static [List] = &LISTS;

    fn read_next(&self, draw: &mut Draw, list: List, k: usize) -> Option<usize> {
        let memory = self;
        let worker = draw.below(memory.rows.len().max(1));
        match list {
            List::Rings => head_slot(draw, &memory.ends, k),
            List::Buffers => memory
                .rows
                .get(worker)
                .map(|row| worker * memory.n() + row[READ] as usize),
            List::Succs => next_successor(memory, worker),
            // of the task that is released next or, of the weights, of the one that is completed next
            List::Weights if draw.below(2) == 0 => held(memory, worker),
            List::Degrees | List::Weights => {
                let task = next_successor(memory, worker).and_then(|at| memory.succs.get(at));
                task.map(|&task| task as usize)
            }
            // counter (i, i), which a Complete reads; a Release may read them all
            List::Counters if draw.below(2) == 0 => Some(worker * memory.rows.len() + worker),
            List::SuccStarts => held(memory, worker),
            _ => None,
        }
    }

    fn word_for(&self, draw: &mut Draw, list: List, place: usize, p: usize, k: usize) -> u32 {
        let (n, [entries, steps]) = (self.n(), self.counts());
        match list {
            List::Run if place == 0 => near(draw, entries + 1),
            List::Run => accepted(draw, steps),
            List::Rows => match place % ROW_WORDS {
                PHASE => phase(draw),
                POINTER => near(draw, p),
                CURSOR => cursor(draw, n),
                HELD => near(draw, n),
                // read and write place
                _ => near(draw, n + 1),
            },
            _ => word_of_both(draw, self, list, place, k),
        }
    }

    fn draw_all(&mut self, draw: &mut Draw, p: usize, k: usize) {
        draw_all(draw, self, p, k);
    }
}

/// The task in the worker's hand.
fn held(memory: &Memory, worker: usize) -> Option<usize> {
    memory.rows.get(worker).map(|row| row[HELD] as usize)
}

/// The head's slot of some ring, mostly of one that isn't empty.
pub fn head_slot(draw: &mut Draw, ends: &[u32], k: usize) -> Option<usize> {
    let rings = ends.len() / END_WORDS;
    let first = draw.below(rings.max(1));
    let waiting = |ring: &usize| ends[END_WORDS * ring + COUNT] > 0;
    let ring = (0..rings).map(|passed| (first + passed) % rings).find(waiting)?;
    Some(ring * k + ends[END_WORDS * ring + HEAD] as usize)
}

/// The place of the successor that the worker would release next.
fn next_successor(memory: &Memory, worker: usize) -> Option<usize> {
    let row = memory.rows.get(worker)?;
    let task = *memory.buffers.get(worker * memory.n() + row[READ] as usize)?;
    let start = *memory.succ_starts.get(task as usize)?;
    Some(start as usize + row[CURSOR] as usize)
}

/// A word of a list that plain and weak jobs have alike, near the limits of the list.
pub fn word_of_both<M: Lists>(draw: &mut Draw, memory: &M, list: List, place: usize, k: usize) -> u32 {
    let (n, e) = (memory.n(), memory.e());
    match list {
        List::Weights => draw.pick(&[0, 1, 65_535, 65_536, 1 << 31, u32::MAX]),
        List::Counters => counter(draw) as u32,
        List::Ends if place % END_WORDS == COUNT => near(draw, k + 1),
        List::Ends => near(draw, k),
        List::Degrees => draw.pick(&[0, 1, 1, 2, n as u32, n as u32 + 1, u32::MAX]),
        List::SuccStarts | List::PredStarts => near(draw, e + 1),
        _ => near(draw, n),
    }
}

/// An accepted word at and beside its limit, the number of all steps.
pub fn accepted(draw: &mut Draw, steps: usize) -> u32 {
    draw.pick(&[
        0,
        steps.saturating_sub(1) as u32,
        steps as u32,
        steps as u32 + 1,
        u32::MAX,
    ])
}

pub fn phase(draw: &mut Draw) -> u32 {
    draw.pick(&[0, 0, 1, 1, 2, 2, 3, 4, u32::MAX])
}

pub fn cursor(draw: &mut Draw, n: usize) -> u32 {
    draw.pick(&[0, 1, 2, n as u32, u32::MAX])
}

/// Mostly below the bound, else at it or far above.
pub fn near(draw: &mut Draw, bound: usize) -> u32 {
    let inside = draw.below(bound.max(1)) as u32;
    let at = bound as u32;
    let last = at.saturating_sub(1);
    draw.pick(&[inside, inside, last, at, at, at + 1, 65_535, 1 << 31, u32::MAX])
}

/// "counter beyond ±2^30", at that limit and within it.
fn counter(draw: &mut Draw) -> i32 {
    let limit = 1 << 30;
    let small = draw.between(0, 200) as i32 - 100;
    draw.pick(&[
        0,
        small,
        small,
        limit,
        -limit,
        limit + 1,
        -limit - 1,
        i32::MAX,
        i32::MIN,
    ])
}

fn draw_all(draw: &mut Draw, memory: &mut Memory, p: usize, k: usize) {
    let (n, e) = (memory.n(), memory.e());
    words_below(draw, &mut memory.succ_starts, e + 1);
    memory.succ_starts.sort_unstable();
    words_below(draw, &mut memory.succs, n);
    words_below(draw, &mut memory.degrees, 4);
    words_below(draw, &mut memory.rings, n);
    draw_ends(draw, &mut memory.ends, k);
    words_below(draw, &mut memory.buffers, n);
    words_below(draw, &mut memory.executed, n);
    memory.run = vec![draw.below(n) as u32, draw.below(3 * n + e) as u32];
    draw_counters(draw, &mut memory.counters);
    for row in &mut memory.rows {
        let write = draw.below(n + 1);
        let read = draw.below(write + 1);
        let (phase, held, pointer) = (draw.below(3), draw.below(n), draw.below(p));
        *row = [phase, held, pointer, read, write, draw.below(2)].map(|word| word as u32);
    }
}

pub fn words_below(draw: &mut Draw, list: &mut [u32], bound: usize) {
    list.iter_mut().for_each(|word| *word = draw.below(bound) as u32);
}

/// Rings with any head and count; head = tail is an empty ring or a full one.
pub fn draw_ends(draw: &mut Draw, ends: &mut [u32], k: usize) {
    for ends in ends.chunks_exact_mut(END_WORDS) {
        let (head, count) = (draw.below(k), draw.below(k + 1));
        ends[HEAD] = head as u32;
        ends[TAIL] = ((head + count) % k) as u32;
        ends[COUNT] = count as u32;
    }
}

pub fn draw_counters(draw: &mut Draw, counters: &mut [i32]) {
    for counter in counters {
        *counter = draw.between(0, 1_000) as i32 - 500;
    }
}
