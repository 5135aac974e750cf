//! Document 01's examples and edges, each expected value reasoned from the paper's words.

use engine_model::model::{check, link, Answer, Graph, Lent, Limits, Lookup, Refusal, Side, Table};

/// A word that no call would write into these small graphs.
const MARK: u32 = 777_777;

fn refused(number: u32, detail: u32) -> Answer {
    Err(Refusal { number, detail })
}

/// The graph of these predecessor lists.
fn graph(lists: &[&[u32]]) -> Graph {
    let lists: Vec<Vec<u32>> = lists.iter().map(|list| list.to_vec()).collect();
    Graph::of_lists(&lists)
}

/// The graph of N weights 0 and these starts and predecessors as they are.
fn raw(n: usize, starts: &[u32], words: &[u32]) -> Graph {
    Graph {
        weights: vec![0; n],
        preds: table(starts, words),
    }
}

fn table(starts: &[u32], words: &[u32]) -> Table {
    Table {
        starts: starts.to_vec(),
        words: words.to_vec(),
    }
}

/// Lent lists of these lengths, every word the mark.
fn lent(starts: usize, succs: usize, degrees: usize) -> Lent {
    Lent {
        starts: vec![MARK; starts],
        succs: vec![MARK; succs],
        degrees: vec![MARK; degrees],
    }
}

/// Lent lists of the lengths that the graph asks for.
fn fitting(graph: &Graph) -> Lent {
    let n = graph.weights.len();
    lent(n + 1, graph.preds.words.len(), n)
}

/// The check's answer, which a linking call with fitting lists must share and, refused, leave every mark.
fn both(graph: &Graph) -> Answer {
    both_within(Limits::ENGINE, graph)
}

fn both_within(limits: Limits, graph: &Graph) -> Answer {
    let answer = check(limits, graph);
    let before = fitting(graph);
    let mut lists = before.clone();
    assert_eq!(link(limits, graph, &mut lists), answer);
    if answer.is_err() {
        assert_eq!(lists, before);
    }
    answer
}

/// The linking call's lists, which must be accepted.
fn linked(graph: &Graph) -> Lent {
    let mut lists = fitting(graph);
    assert_eq!(link(Limits::ENGINE, graph, &mut lists), Ok(()));
    lists
}

/// The diamond of the desk program: 1 and 2 after 0, 3 after 1 and 2.
fn diamond() -> Graph {
    graph(&[&[], &[0], &[0], &[1, 2]])
}

fn diamond_lookup() -> Lookup {
    let graph = diamond();
    Lookup {
        weights: graph.weights,
        preds: graph.preds,
        succs: table(&[0, 2, 3, 4, 4], &[1, 2, 3, 3]),
    }
}

/// The lookup is refused so, and hands back an empty part.
fn assert_lookup_refused(lookup: &Lookup, side: Side, task: u32, number: u32, detail: u32) {
    assert_eq!(lookup.judge(side, task), refused(number, detail));
    assert!(lookup.neighbours(side, task).is_empty());
}

fn assert_lookup(lookup: &Lookup, side: Side, task: u32, expected: &[u32]) {
    assert_eq!(lookup.judge(side, task), Ok(()));
    assert_eq!(lookup.neighbours(side, task), expected);
}

#[test]
fn tables_of_lists_lie_one_after_the_other() {
    let made = diamond();
    assert_eq!(made.weights, [0, 0, 0, 0]);
    assert_eq!(made.preds.starts, [0, 0, 1, 2, 4]);
    assert_eq!(made.preds.words, [0, 0, 1, 2]);
    assert_eq!(Table::of(&[]).starts, [0]);
    assert!(Table::of(&[]).words.is_empty());
}

/// Row 1: "N 4, degrees of 3 words".
#[test]
fn row_1_example() {
    let mut lists = lent(5, 4, 3);
    assert_eq!(link(Limits::ENGINE, &diamond(), &mut lists), refused(1, 0));
    assert_eq!(lists, lent(5, 4, 3));
}

/// "Each length is exact": one too few and one too many of each list that is lent, and none at all.
#[test]
fn row_1_every_lent_list() {
    let wrong = [
        (4, 4, 4),
        (6, 4, 4),
        (5, 3, 4),
        (5, 5, 4),
        (5, 4, 3),
        (5, 4, 5),
        (0, 0, 0),
    ];
    for (starts, succs, degrees) in wrong {
        let mut lists = lent(starts, succs, degrees);
        assert_eq!(link(Limits::ENGINE, &diamond(), &mut lists), refused(1, 0));
        assert_eq!(lists, lent(starts, succs, degrees));
    }
}

/// "Predecessor starts N+1".
#[test]
fn row_1_predecessor_starts() {
    assert_eq!(both(&raw(2, &[0, 0], &[])), refused(1, 0));
    assert_eq!(both(&raw(2, &[0, 0, 0, 0], &[])), refused(1, 0));
    assert_eq!(both(&raw(2, &[], &[])), refused(1, 0));
    assert_eq!(both(&raw(0, &[], &[])), refused(1, 0));
}

/// "N at most 1,024. E edges, at most 8,192. Weights 0..65,535."
#[test]
fn row_2_limits() {
    assert_eq!(both(&raw(1_024, &[0; 1_025], &[])), Ok(()));
    assert_eq!(both(&raw(1_025, &[0; 1_026], &[])), refused(2, 0));
    // E 8,192 is within its limit, so the table is judged: task 0 is the first whose predecessor 9 isn't below N 1.
    assert_eq!(both(&raw(1, &[0, 8_192], &[9; 8_192])), refused(3, 0));
    assert_eq!(both(&raw(1, &[0, 8_193], &[9; 8_193])), refused(2, 0));
    let mut weighty = diamond();
    weighty.weights[3] = 65_535;
    assert_eq!(both(&weighty), Ok(()));
    weighty.weights[3] = 65_536;
    assert_eq!(both(&weighty), refused(2, 0));
}

/// The caller's limits count where they are lower; "above the engine's they count as the engine's".
#[test]
fn row_2_limits_of_the_caller() {
    let limits = |tasks, edges| Limits { tasks, edges };
    assert_eq!(both_within(limits(4, 4), &diamond()), Ok(()));
    assert_eq!(both_within(limits(3, 4), &diamond()), refused(2, 0));
    assert_eq!(both_within(limits(4, 3), &diamond()), refused(2, 0));
    let widest = limits(u32::MAX, u32::MAX);
    assert_eq!(both_within(widest, &raw(1_024, &[0; 1_025], &[])), Ok(()));
    assert_eq!(both_within(widest, &raw(1_025, &[0; 1_026], &[])), refused(2, 0));
    assert_eq!(both_within(widest, &raw(1, &[0, 8_193], &[9; 8_193])), refused(2, 0));
    assert_eq!(both_within(limits(0, 0), &raw(0, &[0], &[])), Ok(()));
}

/// Row 3: "N 2, predecessor 2". The detail is the task that names it.
#[test]
fn row_3_example() {
    assert_eq!(both(&graph(&[&[], &[2]])), refused(3, 1));
    assert_eq!(both(&graph(&[&[2], &[]])), refused(3, 0));
    assert_eq!(both(&graph(&[&[], &[u32::MAX]])), refused(3, 1));
}

/// "start t ≤ start t+1 ≤ E fails".
#[test]
fn row_3_ranges() {
    // Start 1 is 2, start 2 is 1: task 1 falls. Task 0 has 0..2 of two words, both below N 3.
    assert_eq!(both(&raw(3, &[0, 2, 1, 2], &[0, 0])), refused(3, 1));
    // Start 1 is 3 with E 2: task 0 ends beyond E.
    assert_eq!(both(&raw(3, &[0, 3, 2, 2], &[0, 0])), refused(3, 0));
    // Start 2 is beyond E: task 1 ends there; task 2 begins there, but 1 is smaller.
    assert_eq!(both(&raw(3, &[0, 0, 9, 2], &[0, 0])), refused(3, 1));
    assert_eq!(both(&raw(2, &[u32::MAX, u32::MAX, u32::MAX], &[])), refused(3, 0));
}

/// Open point 8: "one minimum over bad ranges and bad predecessors together".
#[test]
fn row_3_one_minimum() {
    // Task 0 names 7, task 2's range falls: 0.
    assert_eq!(both(&raw(3, &[0, 1, 2, 1], &[7, 0])), refused(3, 0));
    // Task 0's range ends beyond E, task 2 names 7: 0.
    assert_eq!(both(&raw(3, &[0, 3, 1, 2], &[0, 7])), refused(3, 0));
    // Task 0 has 0..1, which is good; task 1's range falls from 1 to 0; task 2 (0..2) names 7: 1.
    assert_eq!(both(&raw(3, &[0, 1, 0, 2], &[0, 7])), refused(3, 1));
    // Task 1 (0..1) names 7, task 2's range falls from 1 to 0: 1.
    assert_eq!(both(&raw(3, &[0, 0, 1, 0], &[7])), refused(3, 1));
}

/// "N for a wrong first or last start alone".
#[test]
fn row_3_first_or_last_start_alone() {
    assert_eq!(both(&raw(2, &[1, 1, 1], &[0])), refused(3, 2));
    assert_eq!(both(&raw(2, &[0, 0, 0], &[0])), refused(3, 2));
    assert_eq!(both(&raw(3, &[1, 1, 1, 1], &[0, 0])), refused(3, 3));
    // The word before the first start belongs to no task, so 9 makes no task bad.
    assert_eq!(both(&raw(2, &[1, 1, 1], &[9])), refused(3, 2));
    // A last start beyond E is the last task's own bad range, so that task is named.
    assert_eq!(both(&raw(2, &[0, 0, 2], &[0])), refused(3, 1));
    // A wrong first start with a bad task: the task is named.
    assert_eq!(both(&raw(2, &[1, 1, 2], &[0, 2])), refused(3, 1));
}

/// Row 4: "task 3: 1, 1".
#[test]
fn row_4_example() {
    assert_eq!(both(&graph(&[&[], &[], &[], &[1, 1]])), refused(4, 3));
}

/// "smallest such task", and the two need not be side by side; the same number in two tasks is no such thing.
#[test]
fn row_4_smallest() {
    assert_eq!(both(&graph(&[&[], &[], &[1, 0, 1], &[0, 0]])), refused(4, 2));
    assert_eq!(both(&graph(&[&[], &[0], &[0], &[0]])), Ok(()));
}

/// Row 5: "1 after 2, 2 after 1: detail 1".
#[test]
fn row_5_example() {
    assert_eq!(both(&graph(&[&[], &[2], &[1]])), refused(5, 1));
}

/// "a loop on one task included".
#[test]
fn row_5_loop_on_one_task() {
    assert_eq!(both(&graph(&[&[0]])), refused(5, 0));
    assert_eq!(both(&graph(&[&[], &[0], &[1, 2]])), refused(5, 2));
}

/// Open point 11: tasks behind a cycle (after it) and before it don't count.
#[test]
fn row_5_behind_and_before() {
    // 0 after 1, and 1 and 2 after each other: 0 lies behind.
    assert_eq!(both(&graph(&[&[1], &[2], &[1]])), refused(5, 1));
    // 1 and 2 after each other, 1 also after 0: 0 lies before.
    assert_eq!(both(&graph(&[&[], &[0, 2], &[1]])), refused(5, 1));
    // Cycle 3 → 4 → 5 → 3; 0 before, 1 behind, 2 between this cycle and the loop on 6.
    let lists: [&[u32]; 7] = [&[], &[4], &[5], &[0, 5], &[3], &[4], &[2, 6]];
    assert_eq!(both(&graph(&lists)), refused(5, 3));
}

/// "smallest task on any cycle": of two cycles the one with the smaller task, wherever that task stands in it.
#[test]
fn row_5_smallest_of_two_cycles() {
    // 1 and 4 after each other, 2 and 3 after each other.
    assert_eq!(both(&graph(&[&[], &[4], &[3], &[2], &[1]])), refused(5, 1));
    // Two cycles that share task 2: 2 → 3 → 2 and 2 → 1 → 2.
    assert_eq!(both(&graph(&[&[], &[2], &[1, 3], &[2]])), refused(5, 1));
}

/// "Order in begin: 2, 1, 3, 4, 5".
#[test]
fn order_of_the_numbers() {
    // Task 0 loops (5), task 1 names 0 twice (4), task 2 names 9 (3).
    let mut bad = graph(&[&[0], &[0, 0], &[9]]);
    bad.preds.starts.push(4);
    bad.weights[0] = 65_536;
    assert_eq!(both(&bad), refused(2, 0));
    bad.weights[0] = 0;
    assert_eq!(both(&bad), refused(1, 0));
    bad.preds.starts.pop();
    assert_eq!(both(&bad), refused(3, 2));
    bad.preds.words[3] = 1;
    assert_eq!(both(&bad), refused(4, 1));
    bad.preds.words[2] = 2;
    assert_eq!(both(&bad), refused(5, 0));
    // Task 0 loops no more: 1 after 0 and 2, 2 after 1, so the cycle of 1 and 2 is left.
    assert_eq!(both(&graph(&[&[], &[0, 2], &[1]])), refused(5, 1));
    assert_eq!(both(&graph(&[&[], &[0], &[1]])), Ok(()));
}

/// A wrong lent length is 1: after 2, before 3, 4 and 5.
#[test]
fn order_with_lent_lengths() {
    let mut lists = lent(0, 0, 0);
    for bad in [graph(&[&[9]]), graph(&[&[], &[0, 0]]), graph(&[&[0]])] {
        assert_eq!(link(Limits::ENGINE, &bad, &mut lists), refused(1, 0));
    }
    let mut heavy = diamond();
    heavy.weights[0] = u32::MAX;
    assert_eq!(link(Limits::ENGINE, &heavy, &mut lists), refused(2, 0));
    assert_eq!(lists, lent(0, 0, 0));
}

/// "Successors are filled, degrees are numbers of predecessors."
#[test]
fn diamond_linked() {
    assert_eq!(both(&diamond()), Ok(()));
    let lists = linked(&diamond());
    assert_eq!(lists.starts, [0, 2, 3, 4, 4]);
    assert_eq!(lists.succs, [1, 2, 3, 3]);
    assert_eq!(lists.degrees, [0, 1, 1, 2]);
}

/// "each task's successors rising", though predecessors may stand in any order and edges may lead to smaller numbers.
#[test]
fn successors_rise() {
    let lists = linked(&graph(&[&[3, 2], &[3], &[3], &[]]));
    assert_eq!(lists.starts, [0, 0, 0, 1, 4]);
    assert_eq!(lists.succs, [0, 0, 1, 2]);
    assert_eq!(lists.degrees, [2, 1, 1, 0]);
}

/// N 0: starts of one word, 0, and nothing else.
#[test]
fn no_tasks() {
    assert_eq!(both(&raw(0, &[0], &[])), Ok(()));
    let lists = linked(&raw(0, &[0], &[]));
    assert_eq!(lists.starts, [0]);
    assert!(lists.succs.is_empty() && lists.degrees.is_empty());
    // Open point 10: "N 0 with E above 0 is 3, detail 0", whatever the one start is.
    for start in [0, 1, 2, u32::MAX] {
        assert_eq!(both(&raw(0, &[start], &[5])), refused(3, 0));
    }
    // A wrong first start alone names N, which is 0.
    assert_eq!(both(&raw(0, &[1], &[])), refused(3, 0));
}

#[test]
fn lookup_of_the_diamond() {
    let lookup = diamond_lookup();
    let preds: [&[u32]; 4] = [&[], &[0], &[0], &[1, 2]];
    let succs: [&[u32]; 4] = [&[1, 2], &[3], &[3], &[]];
    for task in 0..4 {
        assert_lookup(&lookup, Side::Predecessors, task, preds[task as usize]);
        assert_lookup(&lookup, Side::Successors, task, succs[task as usize]);
    }
}

/// "handed back as that part of the predecessor or the successor table itself".
#[test]
fn lookup_hands_back_the_table_itself() {
    let lookup = diamond_lookup();
    let preds = lookup.neighbours(Side::Predecessors, 3);
    assert!(std::ptr::eq(preds, &lookup.preds.words[2..4]));
    let succs = lookup.neighbours(Side::Successors, 0);
    assert!(std::ptr::eq(succs, &lookup.succs.words[0..2]));
}

/// "task ≥ N", detail "lookup: the task".
#[test]
fn lookup_task_not_below_n() {
    for side in [Side::Predecessors, Side::Successors] {
        for task in [4, 5, u32::MAX] {
            assert_lookup_refused(&diamond_lookup(), side, task, 3, task);
        }
    }
    let none = Lookup {
        preds: table(&[0], &[]),
        succs: table(&[0], &[]),
        ..Lookup::default()
    };
    assert_lookup_refused(&none, Side::Predecessors, 0, 3, 0);
}

/// "its range or a number in it is bad", on the side named and for that task alone.
#[test]
fn lookup_judges_its_part_only() {
    let mut lookup = diamond_lookup();
    lookup.succs.words[2] = 4;
    assert_lookup_refused(&lookup, Side::Successors, 1, 3, 1);
    assert_lookup(&lookup, Side::Successors, 2, &[3]);
    assert_lookup(&lookup, Side::Predecessors, 1, &[0]);
    // Start 2 is 5, E 4: task 1 ends beyond E, task 2 begins there; 0 and 3 keep their ranges.
    lookup.preds.starts[2] = 5;
    assert_lookup_refused(&lookup, Side::Predecessors, 1, 3, 1);
    assert_lookup_refused(&lookup, Side::Predecessors, 2, 3, 2);
    assert_lookup(&lookup, Side::Predecessors, 0, &[]);
    assert_lookup(&lookup, Side::Predecessors, 3, &[1, 2]);
}

/// A first start that isn't 0 or a last one that isn't E, twins, loops and cycles are no matter of the lookup.
#[test]
fn lookup_judges_no_graph() {
    let lookup = Lookup {
        weights: vec![u32::MAX; 2],
        preds: table(&[1, 3, 3], &[9, 0, 0, 9]),
        succs: table(&[2, 2, 3], &[9, 9, 1, 9]),
    };
    assert_lookup(&lookup, Side::Predecessors, 0, &[0, 0]);
    assert_lookup(&lookup, Side::Predecessors, 1, &[]);
    assert_lookup(&lookup, Side::Successors, 0, &[]);
    assert_lookup(&lookup, Side::Successors, 1, &[1]);
}

/// "In lookup: 2, 1, 3": all lengths on both sides, whichever is named.
#[test]
fn lookup_order_and_lengths() {
    let mut changed: [Lookup; 6] = std::array::from_fn(|_| diamond_lookup());
    changed[0].preds.starts.push(4);
    changed[1].succs.starts.pop();
    changed[2].succs.words.push(0);
    changed[3].preds.words.pop();
    changed[4].weights.pop();
    changed[5].succs.starts.clear();
    for lookup in &changed {
        for side in [Side::Predecessors, Side::Successors] {
            assert_lookup_refused(lookup, side, 0, 1, 0);
            assert_lookup_refused(lookup, side, u32::MAX, 1, 0);
        }
    }
    for lookup in &mut changed {
        lookup.weights.resize(1_025, 0);
        assert_lookup_refused(lookup, Side::Successors, u32::MAX, 2, 0);
        lookup.weights.resize(1_024, 0);
        assert_lookup_refused(lookup, Side::Successors, u32::MAX, 1, 0);
        lookup.preds.words.resize(8_193, 0);
        assert_lookup_refused(lookup, Side::Predecessors, 0, 2, 0);
        lookup.preds.words.resize(8_192, 0);
        assert_lookup_refused(lookup, Side::Predecessors, 0, 1, 0);
    }
    // E is the number of predecessors, so too many successors are a wrong length.
    let mut lookup = diamond_lookup();
    lookup.succs.words.resize(8_193, 0);
    assert_lookup_refused(&lookup, Side::Successors, 0, 1, 0);
}

/// A plain sequence of numbers for words and lengths (Knuth's MMIX constants), the upper half of each.
struct Dice(u64);

impl Dice {
    fn below(&mut self, bound: u32) -> u32 {
        self.0 = self
            .0
            .wrapping_mul(6_364_136_223_846_793_005)
            .wrapping_add(1_442_695_040_888_963_407);
        ((self.0 >> 32) as u32) % bound
    }

    /// Words mostly small, now and then at the far end.
    fn words(&mut self, length: u32, bound: u32) -> Vec<u32> {
        let mut words = Vec::new();
        for _ in 0..length {
            let far = self.below(40) == 0;
            words.push(if far {
                u32::MAX - self.below(2)
            } else {
                self.below(bound)
            });
        }
        words
    }

    fn table(&mut self) -> Table {
        let (starts, words) = (self.below(5), self.below(5));
        Table {
            starts: self.words(starts, 5),
            words: self.words(words, 4),
        }
    }
}

/// No words and no lengths make a call panic; a refused call leaves the lists, an accepted one agrees with the lookups.
#[test]
fn any_words_and_lengths() {
    let mut dice = Dice(1);
    let mut accepted = 0;
    for _ in 0..200_000 {
        let length = dice.below(4);
        let graph = Graph {
            weights: dice.words(length, 9),
            preds: dice.table(),
        };
        if both(&graph).is_ok() {
            accepted += 1;
            assert_lookups_agree(&graph);
        }
        let lookup = Lookup {
            weights: graph.weights,
            preds: graph.preds,
            succs: dice.table(),
        };
        for task in [0, 1, 2, 3, 4, u32::MAX] {
            for side in [Side::Predecessors, Side::Successors] {
                let refused = lookup.judge(side, task).is_err();
                assert!(!refused || lookup.neighbours(side, task).is_empty());
            }
        }
    }
    assert!(accepted > 100);
}

/// Every edge is found from both of its ends, and degrees count the predecessors.
fn assert_lookups_agree(graph: &Graph) {
    let lists = linked(graph);
    let lookup = Lookup {
        weights: graph.weights.clone(),
        preds: graph.preds.clone(),
        succs: table(&lists.starts, &lists.succs),
    };
    for task in 0..graph.weights.len() as u32 {
        let preds = lookup.neighbours(Side::Predecessors, task);
        assert_eq!(preds.len(), lists.degrees[task as usize] as usize);
        for &pred in preds {
            assert!(lookup.neighbours(Side::Successors, pred).contains(&task));
        }
    }
}

/// The largest case: 1,024 tasks, 8,192 edges, each task after the eight before it and the last few after more.
#[test]
fn largest_case() {
    let mut lists: Vec<Vec<u32>> = (0..1_024u32)
        .map(|task| (task.saturating_sub(8)..task).collect())
        .collect();
    let missing = 8_192 - lists.iter().map(Vec::len).sum::<usize>() as u32;
    lists[1_023].extend(0..missing);
    let full = Graph::of_lists(&lists);
    assert_eq!(full.preds.words.len(), 8_192);
    let begun = std::time::Instant::now();
    assert_eq!(both(&full), Ok(()));
    assert_lookups_agree(&full);
    assert!(begun.elapsed().as_millis() < 1_000);
    // One edge turned into 0 after 1,023 closes a cycle through task 0.
    lists[1_023].pop();
    lists[0].push(1_023);
    assert_eq!(both(&Graph::of_lists(&lists)), refused(5, 0));
}
