//! Faulty vaults that sign for rivals, and the question who did.

use super::build::Builder;
use crate::write::equivocating;

/// Some of the faulty vaults sign some of these jobs, one after another, and
/// the question is asked in between.
pub fn sign_for_rivals(builder: &mut Builder, jobs: &[u8]) {
    let often = *builder.random.pick(&[20, 50, 100]);
    for vault in builder.vaults() {
        if !builder.is_faulty(vault) {
            continue;
        }
        for job in jobs {
            if builder.random.chance(often) {
                let _ = builder.sign(vault, *job);
            }
            if builder.random.chance(30) {
                ask(builder);
            }
        }
    }
    ask(builder);
}

pub fn ask(builder: &mut Builder) {
    let _ = builder.step(equivocating());
}
