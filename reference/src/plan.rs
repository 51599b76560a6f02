//! The planning rule: which profile a set of cabinets can bear, and its quorums.

use crate::refusal::Refusal;

pub const MOST_CABINETS: u32 = 9;

#[derive(Clone, Copy, Debug, PartialEq, Eq)]
pub enum Profile {
    Forgetful,
    Store,
}

#[derive(Clone, Copy, Debug, PartialEq, Eq)]
pub struct Plan {
    pub profile: Profile,
    pub cabinets: u32,
    /// Cabinets 1 to this number have a store.
    pub stores: u32,
    /// How many cabinets may roll back.
    pub may_roll_back: u32,
    pub write_quorum: u32,
    pub read_quorum: u32,
}

impl Plan {
    /// `n` cabinets, of which `k` may be faulty, `r` may roll back and `b`
    /// sound ones may restart.
    pub fn new(n: u32, k: u32, r: u32, b: u32) -> Result<Plan, Refusal> {
        if !(2..=MOST_CABINETS).contains(&n) || k > n || r > k || b > n {
            return Err(Refusal::OutOfRange);
        }
        if n > 2 * k + b {
            Ok(Plan {
                profile: Profile::Forgetful,
                cabinets: n,
                stores: 0,
                may_roll_back: r,
                write_quorum: n - k,
                read_quorum: k + 1,
            })
        } else if n > 2 * k + r {
            Ok(Plan {
                profile: Profile::Store,
                cabinets: n,
                stores: 2 * k + r + 1,
                may_roll_back: r,
                write_quorum: n - k,
                read_quorum: n - k,
            })
        } else {
            Err(Refusal::TooFewCabinets)
        }
    }
}

#[cfg(test)]
mod tests {
    use super::*;

    fn shown(n: u32, k: u32, r: u32, b: u32) -> Result<(Profile, u32, u32, u32), u8> {
        Plan::new(n, k, r, b)
            .map(|p| (p.profile, p.stores, p.write_quorum, p.read_quorum))
            .map_err(Refusal::number)
    }

    #[test]
    fn the_papers_plans() {
        assert_eq!(shown(3, 1, 0, 0), Ok((Profile::Forgetful, 0, 2, 2)));
        assert_eq!(shown(5, 1, 1, 2), Ok((Profile::Forgetful, 0, 4, 2)));
        assert_eq!(shown(4, 1, 1, 2), Ok((Profile::Store, 4, 3, 3)));
        assert_eq!(shown(2, 0, 0, 2), Ok((Profile::Store, 1, 2, 2)));
        assert_eq!(shown(9, 4, 0, 0), Ok((Profile::Forgetful, 0, 5, 5)));
        assert_eq!(shown(3, 1, 1, 1), Err(12));
        assert_eq!(shown(9, 4, 4, 1), Err(12));
        assert_eq!(shown(3, 1, 2, 0), Err(2));
        assert_eq!(shown(10, 1, 0, 0), Err(2));
    }

    #[test]
    fn range_comes_before_the_bound() {
        assert_eq!(shown(1, 0, 0, 0), Err(2));
        assert_eq!(shown(3, 4, 0, 0), Err(2));
        assert_eq!(shown(3, 0, 0, 4), Err(2));
        assert_eq!(shown(3, 3, 3, 3), Err(12));
    }
}
