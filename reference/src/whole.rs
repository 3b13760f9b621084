//! "One run whole": its 245 bytes and its text, from document 01's words.

use crate::write::*;

pub fn whole_run() -> Vec<u8> {
    let old = (b"VAA001L5", 1000);
    let new = (b"VAB001L7", 1000);
    let steps = [
        propose(record(0, 7, &[], &[old])),
        propose(record(1, 7, &[old], &[new])),
        preflight(0, 1),
        preflight(0, 0),
        preflight(1, 0),
        faulty_signature(3, 0),
        commit(0, 0, 3),
        commit(0, 0, 11),
        commit(2, 0, 15),
        show(0),
        preflight(0, 1),
        generations(0),
    ];
    run_file(4, 1, 8, &steps)
}

pub fn whole_text() -> &'static str {
    "1 0 0\n2 0 1\n3 11 0\n4 0 1\n5 0 2\n6 0 3\n7 16 0\n8 0 1\n9 15 0\n10 0 1\n11 0 1\n12 0 0\n"
}
