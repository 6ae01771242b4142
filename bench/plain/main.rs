//! Answers queries by a saved hierarchy in plain Rust, without contracts and crates, in the layout of data that was the fastest of
//! many in trials. `bench/layout` runs it beside the proved program.
//!
//!   layout dist HIERARCHY QUERIES
//!   layout routes HIERARCHY QUERIES
//!
//! Standard output gets the bytes that `chtab` writes. Standard error gets a line for each part of answering, without reading and writing: its
//! name, and the nanoCPU seconds for each query or route. Files are not checked: they have to be of their forms, and no way up or
//! down the hierarchy may weigh 2^37 or have 2^25 arcs, so that words have room for sums.
mod hierarchy;
mod routes;
mod search;
mod slices;
mod text;

use hierarchy::Hierarchy;
use routes::Route;
use search::Search;
use slices::at;
use text::{named, nodes_in, push_line};

extern "C" {
    fn clock_gettime(clock: i32, seconds_and_nanoseconds: *mut [i64; 2]) -> i32;
}

/// Does a part of answering, and tells the nanoCPU seconds that each of `count` took.
fn timed<T>(part: &str, count: usize, work: impl FnOnce() -> T) -> T {
    const OF_THE_PROCESS: i32 = 2;
    let (mut start, mut end) = ([0; 2], [0; 2]);
    assert_eq!(unsafe { clock_gettime(OF_THE_PROCESS, &mut start) }, 0);
    let result = work();
    assert_eq!(unsafe { clock_gettime(OF_THE_PROCESS, &mut end) }, 0);
    let nanoseconds = (end[0] - start[0]) * 1_000_000_000 + end[1] - start[1];
    eprintln!("{part} {:.2}", nanoseconds as f64 / count.max(1) as f64);
    result
}

/// The text of the answers to the queries of a file, with routes where `part` is that.
fn answers_text(part: &str, hierarchy: &Hierarchy, queries: &str, answer: impl FnMut([u32; 2]) -> Option<Route>) -> Vec<u8> {
    let queries = nodes_in(queries, hierarchy);
    let answers: Vec<_> = timed(part, queries.len(), || queries.iter().copied().map(answer).collect());
    let mut text = Vec::new();
    for (ends, answer) in queries.iter().zip(&answers) {
        let [start, end] = ends.map(|node| named(at(&hierarchy.outer, node)));
        push_line(&mut text, b'd', [start, end, answer.as_ref().map(|route| route.weight)]);
        if let (Some(route), "route") = (answer, part) {
            push_line(&mut text, b'r', [Some(route.arcs.len() as u64)]);
            for arc in &route.arcs {
                push_line(&mut text, b'a', [named(arc.from), named(arc.to), Some(arc.weight)]);
            }
        }
    }
    text
}

fn distances_text(hierarchy: &Hierarchy, queries: &str) -> Vec<u8> {
    let mut search = Search::<u64>::new(hierarchy);
    let distance = |ends| search.distance(ends).map(|weight| Route { weight, arcs: Vec::new() });
    answers_text("query", hierarchy, queries, distance)
}

fn routes_text(hierarchy: &Hierarchy, queries: &str) -> Vec<u8> {
    let (mut search, mut pending) = (Search::<u128>::new(hierarchy), Vec::new());
    answers_text("route", hierarchy, queries, |ends| search.route(ends, &mut pending))
}

fn main() {
    let words: Vec<String> = std::env::args().skip(1).collect();
    let words: Vec<&str> = words.iter().map(String::as_str).collect();
    let text = match words[..] {
        ["dist", hierarchy, queries] => distances_text(&Hierarchy::read::<u64>(hierarchy), queries),
        ["routes", hierarchy, queries] => routes_text(&Hierarchy::read::<u128>(hierarchy), queries),
        _ => panic!("other words than the head of the source tells"),
    };
    std::io::Write::write_all(&mut std::io::stdout(), &text).expect("output that can be written");
}
