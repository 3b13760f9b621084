//! The single register alone, and that a difference stops the run loudly.

mod common;
use common::*;
use reference::engine::Engine;
use reference::register::Register;
use reference::settings::Settings;
use reference::step::Step;
use reference::watch::after_step;

const A: &[u8; 8] = b"AAAAAAL7";
const B: &[u8; 8] = b"BBBBBBL7";
const C: &[u8; 8] = b"CCCCCCL7";

/// A register fed with these steps, all answered 0.
fn fed(steps: &[Step]) -> Register {
    let mut register = Register::default();
    for step in steps {
        register.feed(step, true);
    }
    register
}

#[test]
fn it_takes_a_chain() {
    let register = fed(&[
        propose(accession(A, 5)),
        propose(migration(A, B, 5)),
        propose(accession(A, 5)),
        commit(0, 0, 0),
        commit(3, 1, 0),
        commit(2, 0, 0),
    ]);
    assert_eq!(register.stopped, None);
    assert_eq!(register.table.len(), 2);
    assert_eq!(register.taken, [0, 1]);
    assert_eq!(register.frames_accessioned, 5);
    let standing: Vec<_> = register.standing.iter().map(|t| t.label).collect();
    assert_eq!(standing, [*B]);
    assert!(register.made.contains(A) && register.made.contains(B));
}

#[test]
fn refused_steps_change_nothing() {
    let mut register = Register::default();
    register.feed(&propose(accession(A, 5)), false);
    register.feed(&commit(0, 0, 0), false);
    assert!(register.table.is_empty() && register.stopped.is_none());
}

#[test]
fn it_stops() {
    // No such number; parent missing; frames not those that stand; a tape
    // taken twice; a label made twice, even after its tape is retired.
    let stop: [Vec<Step>; 5] = [
        vec![commit(0, 0, 0)],
        vec![propose(migration(A, B, 5)), commit(0, 0, 0)],
        vec![
            propose(accession(A, 5)),
            propose(migration(A, B, 6)),
            commit(0, 0, 0),
            commit(0, 1, 0),
        ],
        vec![
            propose(accession(A, 5)),
            propose(migration(A, B, 5)),
            propose(migration(A, C, 5)),
            commit(0, 0, 0),
            commit(0, 1, 0),
            commit(0, 2, 0),
        ],
        vec![
            propose(accession(A, 5)),
            propose(migration(A, B, 5)),
            propose(accession(A, 6)),
            commit(0, 0, 0),
            commit(0, 1, 0),
            commit(0, 2, 0),
        ],
    ];
    for steps in stop {
        assert!(fed(&steps).stopped.is_some());
        assert!(fed(&steps[..steps.len() - 1]).stopped.is_none());
    }
}

fn one_vault() -> Engine {
    Engine::new(Settings {
        n: 1,
        b: 0,
        faulty: 0,
        version: 1,
    })
}

#[test]
#[should_panic(expected = "after step 3 jobs differ: ledger [], register [0]")]
fn a_job_taken_but_not_held_stops_the_run() {
    let register = fed(&[propose(accession(A, 5)), commit(0, 0, 0)]);
    after_step(3, &one_vault(), &register, true);
}

#[test]
#[should_panic(expected = "after step 7 the register stopped: job 0 is not in the table")]
fn a_register_that_stopped_stops_the_run() {
    after_step(7, &one_vault(), &fed(&[commit(0, 0, 0)]), true);
}
