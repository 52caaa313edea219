//! compare SEED THOUSANDS [OP..]: every operation on that many thousand generated cases, the Rust and the proved library
//! in one process. Prints a table; ends with 1 if a case differs.
#[path = "../side/answers.rs"]
mod answers;
#[path = "../side/ours.rs"]
mod ours;
#[path = "../side/refusals.rs"]
mod refusals;

use oracle::words::{In, Out};

fn hex(w: &[u32]) -> String {
    w.iter().take(200).map(|x| format!("{x:08x} ")).collect()
}

/// A mesh that is past a limit of document 01: the call must be turned back with the first such limit.
fn past_limit(op: &str, mesh: &[u32]) -> Option<u32> {
    if op != "junction_mesh" && op != "surface_mesh" {
        return None;
    }
    let mut at = 0;
    for (size, limit) in [(3, 65_536), (3, 65_536), (1, 196_608), (5, 1024)] {
        if mesh[at] > limit {
            return Some(limit);
        }
        at += 1 + size * mesh[at] as usize;
    }
    None
}

fn main() {
    let args: Vec<String> = std::env::args().collect();
    let numbers = args.get(1).and_then(|s| s.parse::<u64>().ok()).zip(args.get(2).and_then(|s| s.parse::<u64>().ok()));
    let Some((seed, thousands)) = numbers else {
        eprintln!("usage: compare SEED THOUSANDS [OP..]");
        std::process::exit(2);
    };
    let named = &args[3..];
    println!("| operation | seed | cases | past a result's limit | differing |\n|---|---|---|---|---|");
    let mut all = 0;
    for &op in answers::OPS {
        if !named.is_empty() && !named.iter().any(|n| n == op) {
            continue;
        }
        let (mut past, mut differing) = (0u64, 0u64);
        let cases = thousands * 1000;
        for k in 0..cases {
            let case = oracle::gen::case(op, seed, k).expect(op);
            let stream: Vec<u32> = std::iter::once(1).chain(case.iter().copied()).collect();
            let theirs = oracle::ops::run(op, &stream).expect(op);
            let mut ours = Out::default();
            let said = answers::one(op, &mut In::new(&case), &mut ours);
            if let Some(limit) = past_limit(op, &theirs[1..]) {
                past += 1;
                if said == Err(format!("refused 1 at {limit}")) {
                    continue;
                }
            }
            if said.is_err() || ours.words != theirs[1..] {
                differing += 1;
                if differing <= 3 {
                    eprintln!("{op} case {k} of seed {seed}: {said:?}\n in   {}\n rust {}\n ours {}", hex(&case), hex(&theirs[1..]), hex(&ours.words));
                }
            }
        }
        println!("| {op} | {seed} | {cases} | {past} | {differing} |");
        all += differing;
    }
    all += turned_back(seed, thousands, named);
    std::process::exit((all != 0) as i32);
}

/// Lists with faults in them, for each call.
fn turned_back(seed: u64, thousands: u64, named: &[String]) -> u64 {
    let mut all = 0;
    println!("\n| call with bad lists | seed | cases | of them refused | differing |\n|---|---|---|---|---|");
    for &call in refusals::CALLS {
        if !named.is_empty() && !named.iter().any(|n| n == "refusals") {
            continue;
        }
        let (mut refused, mut differing) = (0u64, 0u64);
        let cases = thousands * 1000;
        for k in 0..cases {
            let c = refusals::case(call, seed, k);
            refused += c.wanted.is_some() as u64;
            if !c.right() {
                differing += 1;
                if differing <= 3 {
                    eprintln!("{call} case {k} of seed {seed}: wanted {:?}, said {:?}, memory kept: {}", c.wanted, c.said, c.kept);
                }
            }
        }
        println!("| {call} | {seed} | {cases} | {refused} | {differing} |");
        all += differing;
    }
    all
}
