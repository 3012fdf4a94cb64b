//! The stand-ins work: an index of the Rust that went through a file answers as it did in memory,
//! whatever order its pages come in.
#![cfg(source_at_hand)]

use compare::bdz::BdzMphf;
use compare::rng::Rng;
use compare::uring_session::UringSession;
use compare::IoCtx;
use std::path::PathBuf;

fn file(name: &str) -> PathBuf {
    PathBuf::from(env!("CARGO_TARGET_TMPDIR")).join(name)
}

/// Looks the keys up in memory, page for page, and through queues of several orders.
fn same_answers(in_memory: &BdzMphf, in_file: &BdzMphf, keys: &[u64]) {
    let expected = in_memory.index_batch(keys, &mut IoCtx::none()).unwrap();
    assert_eq!(
        in_file.index_batch(keys, &mut IoCtx::none()).unwrap(),
        expected
    );
    for seed in 0..5 {
        let mut session = UringSession::new(seed);
        let mut context = IoCtx::with(&mut session);
        assert_eq!(in_file.index_batch(keys, &mut context).unwrap(), expected);
    }
}

#[test]
fn assigned_index_through_a_file() {
    let count = 200_000;
    let keys = Rng::new(1).keys(count);
    let values: Vec<u32> = (0..count as u32).rev().collect();
    let built = BdzMphf::build_assigned(&keys, &values, count as u32).unwrap();
    let path = file("assigned");
    built.write_packed_to(&path).unwrap();
    same_answers(&built, &BdzMphf::read_packed_from(&path).unwrap(), &keys);
    let answers = built.index_batch(&keys, &mut IoCtx::none()).unwrap();
    assert_eq!(answers, values);
}

#[test]
fn compact_index_through_a_file() {
    let count = 200_000;
    let keys = Rng::new(2).keys(count);
    let built = BdzMphf::build_compact(&keys).unwrap();
    let path = file("compact");
    built.write_compact_to(&path).unwrap();
    same_answers(&built, &BdzMphf::read_compact_from(&path).unwrap(), &keys);
    let mut answers = built.index_batch(&keys, &mut IoCtx::none()).unwrap();
    answers.sort_unstable();
    assert!(answers.into_iter().eq(0..count as u32));
}
