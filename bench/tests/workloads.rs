//! The workloads are what their names say.

use fusion_bench::count::Graph;
use fusion_bench::generate::{Pair, Rng};
use fusion_bench::workloads::{
    groups_of_four, growth_with_rows, growth_with_sets, pagings, readings, workloads, Place,
};

#[test]
fn sets_are_as_said() {
    let lists = [workloads(), growth_with_rows(), growth_with_sets()];
    for workload in lists.iter().flatten() {
        workload.check();
    }
}

#[test]
fn lists_are_as_said() {
    let found: Vec<(u32, u32)> = readings().iter().map(|reading| reading.check()).collect();
    assert_eq!(found[0].0, 40);
    assert_eq!(found[1..], [(1024, 1024 * 12), (1024, 65_602)]);
}

#[test]
fn pages_are_as_said() {
    let found: Vec<u32> = pagings().iter().map(|paging| paging.check()).collect();
    assert_eq!(found, [1, 1, 1, 54, 54]);
}

/// The positions that complement the most rows, as a range of T.
fn most_complementing(graph: &Graph) -> (usize, usize, u32) {
    let most = graph.0.iter().map(|near| near.count_ones()).max().unwrap();
    let hold = |near: &u64| near.count_ones() == most;
    let first = graph.0.iter().position(hold).unwrap();
    let count = graph.0[first..]
        .iter()
        .take_while(|near| hold(near))
        .count();
    let all = graph.0.iter().filter(|near| hold(near)).count();
    assert_eq!(count, all, "they do not stand together");
    (first, count, most)
}

#[test]
fn rows_that_complement_all_others_stand_first_or_last() {
    for seed in 0..20 {
        for apart in 0..2 {
            for (place, first) in [(Place::First, 0), (Place::Last, 20 + apart)] {
                let (left, right) = groups_of_four(&mut Rng::new(seed), apart, place);
                let graph = Graph::of(&Pair {
                    kind: "test",
                    first: left.image(),
                    second: right.image(),
                });
                assert_eq!(graph.0.len(), 64);
                let others = 63 - apart as u32;
                assert_eq!(most_complementing(&graph), (first, 44 - apart, others));
                assert_eq!(graph.maximal_sets(2000), 1024 + apart);
            }
        }
    }
}
