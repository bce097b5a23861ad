// The five policies: their numbers, their names on sheets, and what sets FIFO, CLOCK and LRU apart from CAR and CART.

pub const CAR: u32 = 1;
pub const CART: u32 = 2;
pub const FIFO: u32 = 3;
pub const CLOCK: u32 = 4;
pub const LRU: u32 = 5;

/// What a blank policy means on a sheet, and what it meant on those filed before request 2.
pub const BLANK: u32 = CART;
pub const BLANK_BEFORE: u32 = CAR;

const NAMES: [(&str, u32); 5] = [("car", CAR), ("cart", CART), ("fifo", FIFO), ("clock", CLOCK), ("lru", LRU)];

/// Whether the number is a policy's; if not, it is refused 1.
pub fn known(policy: u32) -> bool {
    name(policy).is_some()
}

/// The name on sheets of the policy with this number.
pub fn name(policy: u32) -> Option<&'static str> {
    NAMES.iter().find(|(_, number)| *number == policy).map(|(name, _)| *name)
}

/// The number of the policy with this name.
pub fn number(name: &[u8]) -> Option<u32> {
    NAMES.iter().find(|(known, _)| known.as_bytes() == name).map(|(_, number)| *number)
}

/// FIFO, CLOCK and LRU list pages in T1 alone and forget what they evict.
pub fn t1_alone(policy: u32) -> bool {
    [FIFO, CLOCK, LRU].contains(&policy)
}

/// FIFO's and LRU's reference bits stay 0.
pub fn keeps_bits(policy: u32) -> bool {
    policy != FIFO && policy != LRU
}

#[cfg(test)]
mod tests {
    use super::*;

    #[test]
    fn numbers_and_names() {
        for (policy, text) in (1..=5).zip(["car", "cart", "fifo", "clock", "lru"]) {
            assert!(known(policy));
            assert_eq!((name(policy), number(text.as_bytes())), (Some(text), Some(policy)));
        }
        for policy in [0, 6, 7, 259, 1 << 31, u32::MAX] {
            assert!(!known(policy) && name(policy).is_none());
        }
        for text in ["", "fif", "fifo ", " fifo", "FIFO", "cloc", "clocks", "Clock", "lr", "lruu", "lru\r", "arc", "3"] {
            assert_eq!(number(text.as_bytes()), None, "{text}");
        }
    }
}
