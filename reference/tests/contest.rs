//! Document 02, M-111: the contests played out, and what the proved program
//! `contest_cases` prints of them.

use reference::contest::*;

const STORED: &str = include_str!("../../crates/contest_cases/stdout");

fn line(n: u8, f: u8, t: u8) -> String {
    match forecast(n, f, t) {
        Err(why) => format!("{n} {f} {t} {}\n", why.number),
        Ok(told) => {
            let who = match told.prospect {
                Prospect::First => "first",
                Prospect::Second => "second",
                Prospect::Neither => "neither",
            };
            let both = if told.both { " both" } else { "" };
            format!("{n} {f} {t} {who}{both}\n")
        }
    }
}

/// Every contest, and those one past an edge.
fn text() -> String {
    let mut text = String::new();
    for n in 0..18 {
        for f in 0..n + 2 {
            for t in 0..n + 2 {
                text += &line(n, f, t);
            }
        }
    }
    text + &line(255, 255, 255)
}

#[test]
fn the_program_prints_what_is_played_out() {
    let text = text();
    let known = text.lines().filter(|line| !line.ends_with(" 26"));
    assert_eq!(known.count(), 1632);
    for (played, stored) in text.lines().zip(STORED.lines()) {
        assert_eq!(played, stored);
    }
    assert_eq!(text, STORED);
}

/// With the vaults one by one, whichever of them are two-faced.
#[test]
fn which_vaults_are_two_faced_makes_no_difference() {
    for n in 1..=6 {
        for two_faced in 0..1 << n {
            for t in 1..=n {
                let f = u16::count_ones(two_faced) as u8;
                let played = play(Vaults::start(n, two_faced), t.into());
                assert_eq!(forecast(n, f, t), Ok(played), "{n} {two_faced} {t}");
            }
        }
    }
}

#[test]
fn known_contests() {
    let told = |n, f, t| forecast(n, f, t).map(|told| (told.prospect, told.both));
    assert_eq!(told(1, 0, 1), Ok((Prospect::First, false)));
    assert_eq!(told(2, 0, 2), Ok((Prospect::Neither, false)));
    assert_eq!(told(3, 1, 2), Ok((Prospect::First, true)));
    assert_eq!(told(4, 1, 3), Ok((Prospect::First, false)));
    assert_eq!(told(4, 1, 4), Ok((Prospect::Neither, false)));
    assert_eq!(told(6, 1, 5), Ok((Prospect::Neither, false)));
    assert_eq!(told(16, 16, 16), Ok((Prospect::First, true)));
}
