//! "Rows and settings": the settings by value, and as 688 bytes.
use crate::bucket::{self, Block};
use crate::{bytes, dates};

pub const BYTES: usize = 688;
pub const MAX_DAYS: u64 = 36500;
pub const MAX_YEARS: u64 = 100;
/// The next version number that means that all are spent: the one behind the last.
pub const SPENT: u64 = bucket::MAX_VERSION + 1;

pub const DAYS: u64 = 1;
pub const YEARS: u64 = 2;

/// The default retention; all zero where there is none.
#[derive(Clone, Copy, Debug, Default, PartialEq, Eq)]
pub struct DefaultRetention {
    pub mode: u64,
    pub count: u64,
    pub unit: u64,
}

impl DefaultRetention {
    /// The end of the period from an instant on: years go by the calendar, and it may be after the last instant.
    pub fn end(&self, from: u64) -> u64 {
        if self.unit == YEARS {
            dates::years_after(from, self.count)
        } else {
            from + self.count * dates::DAY
        }
    }

    fn sound(&self) -> bool {
        let limit = match self.unit {
            DAYS => MAX_DAYS,
            YEARS => MAX_YEARS,
            _ => return *self == DefaultRetention::default(),
        };
        (1..=2).contains(&self.mode) && (1..=limit).contains(&self.count)
    }
}

/// A rule of the sweep; all zero where it is absent.
#[derive(Clone, Copy, Debug, PartialEq, Eq)]
pub struct Rule {
    pub prefix: Block,
    pub current: u64,
    pub noncurrent: u64,
}

impl Rule {
    pub const ABSENT: Rule = Rule { prefix: [0; 64], current: 0, noncurrent: 0 };

    /// Whether the rule has an action.
    pub fn is_set(&self) -> bool {
        self.current > 0 || self.noncurrent > 0
    }

    /// A rule with neither count is absent, and then its prefix is zero too.
    fn sound(&self) -> bool {
        bucket::sound_block(&self.prefix, 0)
            && self.current <= MAX_DAYS
            && self.noncurrent <= MAX_DAYS
            && (self.is_set() || *self == Rule::ABSENT)
    }

    /// Whether the rule's prefix begins the key.
    pub fn covers(&self, key: &Block) -> bool {
        bucket::begins(&self.prefix, key)
    }
}

#[derive(Clone, Debug, PartialEq, Eq)]
pub struct Settings {
    pub time: u64,
    pub used: u64,
    pub next: u64,
    pub default: DefaultRetention,
    pub rules: [Rule; 8],
}

impl Settings {
    pub fn fresh() -> Settings {
        Settings { time: 0, used: 0, next: 1, default: DefaultRetention::default(), rules: [Rule::ABSENT; 8] }
    }

    /// What the settings alone owe to a sound whole.
    pub fn sound(&self) -> bool {
        self.time <= dates::LAST
            && (1..=SPENT).contains(&self.next)
            && self.default.sound()
            && self.rules.iter().all(Rule::sound)
    }

    /// The settings that 688 bytes say, sound or not.
    pub fn from_bytes(bytes: &[u8; BYTES]) -> Settings {
        let number = |at: usize| word(&bytes[at..at + 8]);
        let mut settings = Settings::fresh();
        settings.time = number(0);
        settings.used = number(8);
        settings.next = number(16);
        settings.default = DefaultRetention { mode: number(24), count: number(32), unit: number(40) };
        for (i, rule) in settings.rules.iter_mut().enumerate() {
            let at = 48 + 80 * i;
            rule.prefix.copy_from_slice(&bytes[at..at + 64]);
            rule.current = number(at + 64);
            rule.noncurrent = number(at + 72);
        }
        settings
    }

    pub fn to_bytes(&self, bytes: &mut [u8; BYTES]) {
        let numbers =
            [self.time, self.used, self.next, self.default.mode, self.default.count, self.default.unit];
        for (number, place) in numbers.iter().zip(bytes.chunks_exact_mut(8)) {
            place.copy_from_slice(&number.to_le_bytes());
        }
        for (rule, place) in self.rules.iter().zip(bytes[48..].chunks_exact_mut(80)) {
            place[..64].copy_from_slice(&rule.prefix);
            place[64..72].copy_from_slice(&rule.current.to_le_bytes());
            place[72..].copy_from_slice(&rule.noncurrent.to_le_bytes());
        }
    }
}

/// The number that 8 bytes say, the lowest first.
pub fn word(bytes: &[u8]) -> u64 {
    bytes::word(bytes, 0)
}
