//! The chance that a random quorum fails, worked out at compile time for all settings.
use reference::settings::MOST_VAULTS;

/// n, or absent vaults, from 0.
const VAULTS: usize = MOST_VAULTS as usize + 1;
/// Bounds on the faulty vaults, from 0: three times one is below n.
const BOUNDS: usize = (MOST_VAULTS as usize).div_ceil(3);
const SETTINGS: usize = VAULTS * BOUNDS * VAULTS;
static CHANCES: [u16; SETTINGS] = chances();

/// In thousandths, an exact half to the even one. `absent` is at most n.
#[inline]
pub fn chance(n: u8, b: u8, absent: u8) -> u16 {
    CHANCES[place(n as usize, b as usize, absent as usize)]
}

const fn place(n: usize, b: usize, absent: usize) -> usize {
    (n * BOUNDS + b) * VAULTS + absent
}

const fn choose(upper: usize, lower: usize) -> usize {
    if lower > upper {
        return 0;
    }
    let mut ways = 1;
    let mut i = 0;
    while i < lower {
        ways = ways * (upper - i) / (i + 1);
        i += 1;
    }
    ways
}

const fn thousandths(n: usize, b: usize, absent: usize) -> u16 {
    let all = choose(n, n - b);
    let failing = all - choose(n - absent, n - b);
    let down = 1000 * failing / all;
    let over = 2 * (1000 * failing % all);
    let up = over > all || (over == all && down % 2 == 1);
    (down + up as usize) as u16
}

const fn chances() -> [u16; SETTINGS] {
    let mut chances = [0; SETTINGS];
    let mut cell = 0;
    while cell < SETTINGS {
        let (n, b, absent) = (
            cell / VAULTS / BOUNDS,
            cell / VAULTS % BOUNDS,
            cell % VAULTS,
        );
        if 3 * b < n && absent <= n {
            chances[cell] = thousandths(n, b, absent);
        }
        cell += 1;
    }
    chances
}

#[cfg(test)]
mod tests {
    use super::*;

    #[test]
    fn worked_cases() {
        assert_eq!(chance(4, 1, 0), 0);
        assert_eq!(chance(4, 1, 1), 750);
        assert_eq!(chance(16, 1, 1), 938);
        assert_eq!(chance(16, 3, 1), 812);
        assert_eq!(chance(16, 5, 1), 688);
        assert_eq!(chance(16, 5, 16), 1000);
    }
}
