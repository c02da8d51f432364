//! Feeds for the comparison: valid hours, full hours and damaged ones, all from a seed.

use crate::model::{
    data_words, split, CAPACITY_PRICE_LIMIT, FIGURE_LIMIT, INTERVALS, INTERVAL_PRICE_LIMIT, LOAD_LIMIT, NUMBER_LIMIT,
    QSE_SLOTS, QUANTITY_LIMIT, RESOURCE_SLOTS, SERVICES,
};

/// The words of a full hour: as many as the hour program reads.
pub const FULL_WORDS: usize = 16_384;

/// The greatest value of a word.
const VALUE_LIMIT: u32 = 0x0fff_ffff;

const ENROL: u32 = 1;
const QUANTITIES: u32 = 2;
const ENTER: u32 = 3;
const STRIKE: u32 = 4;
const PRICES: u32 = 5;
const INTERVAL: u32 = 6;

/// The sample: two QSEs, one resource, 33 words.
#[cfg(test)]
pub fn sample() -> Vec<u32> {
    [
        &[0x1000_000a, 1][..],
        &[0x1000_0014, 2],
        &[0x2000_000a, 1, 0, 0, 0, 0, 100, 0, 0, 36, 10, 0],
        &[0x3000_0064, 10, 0, 0, 50, 0, 0, 0, 0, 0],
        &[0x5000_0001, 1250, 2000, 500],
        &[0x6000_0000, 6000, 3000],
    ]
    .concat()
}

/// The sample's statements under the editions 1, 2 and 3 in turn, in book 7.
#[cfg(test)]
pub const SAMPLE_TEXTS: [&str; 3] = [
    "book 7\n10 D 7700 2566\n20 D 0 5134\ntotal 7700 7700\n",
    "book 7\n10 D 1800 600\n20 D 0 1200\ntotal 1800 1800\n",
    "book 7\ntotal 0 0\n",
];

/// Splitmix64.
pub struct Rng(u64);

impl Rng {
    pub fn new(seed: u64) -> Rng {
        Rng(seed)
    }

    pub fn next(&mut self) -> u64 {
        self.0 = self.0.wrapping_add(0x9e37_79b9_7f4a_7c15);
        let mut z = self.0;
        z = (z ^ (z >> 30)).wrapping_mul(0xbf58_476d_1ce4_e5b9);
        z = (z ^ (z >> 27)).wrapping_mul(0x94d0_49bb_1331_11eb);
        z ^ (z >> 31)
    }

    pub fn word(&mut self) -> u32 {
        self.next() as u32
    }

    /// 0 to `end` − 1; `end` is above 0.
    pub fn below(&mut self, end: usize) -> usize {
        (self.next() % end as u64) as usize
    }

    /// `low` to `high`, both included.
    pub fn between(&mut self, low: u32, high: u32) -> u32 {
        low + (self.next() % (u64::from(high - low) + 1)) as u32
    }

    pub fn chance(&mut self, percent: u32) -> bool {
        self.between(1, 100) <= percent
    }

    pub fn pick<T: Copy>(&mut self, values: &[T]) -> T {
        values[self.below(values.len())]
    }
}

/// How the figures of one sort lie between 0 and their limit.
#[derive(Clone, Copy)]
enum Spread {
    Zero,
    Small,
    Edges,
    Wide,
    Limit,
    Mixed,
}

const SPREADS: [Spread; 8] = [
    Spread::Zero,
    Spread::Small,
    Spread::Edges,
    Spread::Edges,
    Spread::Wide,
    Spread::Limit,
    Spread::Mixed,
    Spread::Mixed,
];

impl Spread {
    fn figure(self, rng: &mut Rng, limit: u32) -> u32 {
        match self {
            Spread::Zero => 0,
            Spread::Small => rng.between(0, limit.min(12)),
            Spread::Edges => rng.pick(&[0, 0, 1, limit - 1, limit, limit]),
            Spread::Wide => rng.between(0, limit),
            Spread::Limit => limit,
            Spread::Mixed => rng.pick(&SPREADS[..6]).figure(rng, limit),
        }
    }
}

/// How the figures of an hour lie.
struct Style {
    /// The greatest number of a QSE or resource.
    numbers: u32,
    loads: Spread,
    quantities: Spread,
    figures: Spread,
    prices: Spread,
}

impl Style {
    fn random(rng: &mut Rng) -> Style {
        Style {
            numbers: rng.pick(&[400, 2_000, NUMBER_LIMIT, NUMBER_LIMIT]),
            loads: rng.pick(&SPREADS),
            quantities: rng.pick(&SPREADS),
            figures: rng.pick(&SPREADS),
            prices: rng.pick(&SPREADS),
        }
    }

    fn mixed() -> Style {
        Style {
            numbers: NUMBER_LIMIT,
            loads: Spread::Wide,
            quantities: Spread::Mixed,
            figures: Spread::Mixed,
            prices: Spread::Wide,
        }
    }
}

/// A valid feed in the making, with what stands in its book.
pub struct Hour {
    pub words: Vec<u32>,
    style: Style,
    qses: Vec<u32>,
    resources: Vec<u32>,
    struck: Vec<u32>,
}

impl Hour {
    fn new(style: Style) -> Hour {
        Hour { words: Vec::new(), style, qses: Vec::new(), resources: Vec::new(), struck: Vec::new() }
    }

    fn group(&mut self, kind: u32, value: u32, data: &[u32]) {
        self.words.push(kind << 28 | value);
        self.words.extend_from_slice(data);
    }

    /// A number that is not among these, at times the least or the greatest.
    fn new_number(&self, rng: &mut Rng, taken: &[u32]) -> u32 {
        loop {
            let number = match rng.below(12) {
                0 => 1,
                1 => NUMBER_LIMIT,
                _ => rng.between(1, self.style.numbers),
            };
            if !taken.contains(&number) {
                return number;
            }
        }
    }

    fn enrol(&mut self, rng: &mut Rng, qse: u32) {
        let load = self.style.loads.figure(rng, LOAD_LIMIT);
        self.group(ENROL, qse, &[load]);
    }

    fn enrol_new(&mut self, rng: &mut Rng) {
        let qse = self.new_number(rng, &self.qses);
        self.qses.push(qse);
        self.enrol(rng, qse);
    }

    fn quantities(&mut self, rng: &mut Rng, qse: u32, service: usize) {
        let mut data = [service as u32; 11];
        data[1..].fill_with(|| self.style.quantities.figure(rng, QUANTITY_LIMIT));
        self.group(QUANTITIES, qse, &data);
    }

    fn enter(&mut self, rng: &mut Rng, resource: u32) {
        let mut data = [0; 9];
        data[0] = rng.pick(&self.qses);
        data[1] = rng.pick(&[0, 1, 2, 2]);
        data[2..].fill_with(|| self.style.figures.figure(rng, FIGURE_LIMIT));
        self.group(ENTER, resource, &data);
    }

    /// Enters a resource that does not stand in the book, at times one that was struck.
    fn enter_new(&mut self, rng: &mut Rng) {
        let resource = match self.struck.pop() {
            Some(struck) if rng.chance(50) => struck,
            _ => self.new_number(rng, &self.resources),
        };
        self.struck.retain(|&struck| struck != resource);
        self.resources.push(resource);
        self.enter(rng, resource);
    }

    fn strike(&mut self, rng: &mut Rng) {
        let place = rng.below(self.resources.len());
        let resource = self.resources.swap_remove(place);
        self.struck.push(resource);
        self.group(STRIKE, resource, &[]);
    }

    fn prices(&mut self, rng: &mut Rng, service: usize) {
        let mut data = [0; 3];
        data.fill_with(|| self.style.prices.figure(rng, CAPACITY_PRICE_LIMIT));
        self.group(PRICES, service as u32, &data);
    }

    fn interval(&mut self, rng: &mut Rng, interval: usize) {
        let mut data = [0; 2];
        data.fill_with(|| self.style.prices.figure(rng, INTERVAL_PRICE_LIMIT));
        self.group(INTERVAL, interval as u32, &data);
    }

    /// Any group that the book takes, with no more than so many QSEs and resources.
    fn any_group(&mut self, rng: &mut Rng, qses: usize, resources: usize) {
        match rng.below(100) {
            _ if self.qses.is_empty() => self.enrol_new(rng),
            0..=15 if self.qses.len() < qses => self.enrol_new(rng),
            16..=35 if self.resources.len() < resources => self.enter_new(rng),
            0..=43 if !self.resources.is_empty() => {
                let resource = rng.pick(&self.resources);
                self.enter(rng, resource);
            }
            44..=49 if !self.resources.is_empty() => self.strike(rng),
            50..=55 => {
                let qse = rng.pick(&self.qses);
                self.enrol(rng, qse);
            }
            56..=63 => {
                let interval = rng.below(INTERVALS);
                self.interval(rng, interval);
            }
            64..=73 => {
                let service = rng.below(SERVICES);
                self.prices(rng, service);
            }
            _ => {
                let (qse, service) = (rng.pick(&self.qses), rng.below(SERVICES));
                self.quantities(rng, qse, service);
            }
        }
    }

    /// Corrects rows and prices that stand until the feed has exactly so many words.
    fn fill(&mut self, rng: &mut Rng, words: usize) {
        while self.words.len() + 40 < words {
            match rng.below(10) {
                0..=3 => {
                    let (qse, service) = (rng.pick(&self.qses), rng.below(SERVICES));
                    self.quantities(rng, qse, service);
                }
                4..=6 => {
                    let resource = rng.pick(&self.resources);
                    self.enter(rng, resource);
                }
                7 => {
                    self.strike(rng);
                    self.enter_new(rng);
                }
                8 => {
                    let service = rng.below(SERVICES);
                    self.prices(rng, service);
                }
                _ => {
                    let interval = rng.below(INTERVALS);
                    self.interval(rng, interval);
                }
            }
        }
        // Groups of two words, and one of three where the number left is odd.
        while self.words.len() < words {
            if (words - self.words.len()) % 2 == 1 {
                let interval = rng.below(INTERVALS);
                self.interval(rng, interval);
            } else {
                let qse = rng.pick(&self.qses);
                self.enrol(rng, qse);
            }
        }
    }

    /// All rows and prices of a book with so many QSEs and resources, then corrections up to so many words.
    fn of_size(rng: &mut Rng, style: Style, qses: usize, resources: usize, words: usize) -> Hour {
        let mut hour = Hour::new(style);
        for _ in 0..qses {
            hour.enrol_new(rng);
        }
        for _ in 0..resources {
            hour.enter_new(rng);
        }
        for service in 0..SERVICES {
            hour.prices(rng, service);
            for qse in hour.qses.clone() {
                hour.quantities(rng, qse, service);
            }
        }
        for interval in 0..INTERVALS {
            hour.interval(rng, interval);
        }
        hour.fill(rng, words);
        hour
    }

    /// Few or many rows, whole or not, in any order.
    fn random(rng: &mut Rng) -> Hour {
        let style = Style::random(rng);
        let (qses, resources, groups) = match rng.below(10) {
            0..=3 => (3, 4, rng.below(25)),
            4..=6 => (8, 20, rng.below(120)),
            7..=8 => (QSE_SLOTS, RESOURCE_SLOTS, rng.below(400)),
            _ => (QSE_SLOTS, RESOURCE_SLOTS, rng.below(1_000)),
        };
        let mut hour = Hour::new(style);
        for _ in 0..groups {
            hour.any_group(rng, qses, resources);
        }
        hour
    }

    fn full(rng: &mut Rng) -> Hour {
        match rng.below(4) {
            0 => Hour::furthest(rng),
            1 => Hour::of_size(rng, Style::mixed(), QSE_SLOTS, RESOURCE_SLOTS, FULL_WORDS),
            _ => {
                let style = Style::random(rng);
                Hour::of_size(rng, style, QSE_SLOTS, RESOURCE_SLOTS, FULL_WORDS)
            }
        }
    }

    /// A full hour with most figures at the limits that give the greatest charges: every price and load at its limit,
    /// and all resources loads that count −3,000 tenths each, mostly under one QSE.
    fn furthest(rng: &mut Rng) -> Hour {
        let style = Style { loads: Spread::Limit, prices: Spread::Limit, ..Style::mixed() };
        let mut hour = Hour::new(style);
        for _ in 0..QSE_SLOTS {
            hour.enrol_new(rng);
        }
        let one = rng.pick(&hour.qses);
        for _ in 0..RESOURCE_SLOTS {
            let resource = hour.new_number(rng, &hour.resources);
            let qse = if rng.chance(97) { one } else { rng.pick(&hour.qses) };
            hour.resources.push(resource);
            let telemetered = rng.pick(&[0, FIGURE_LIMIT]);
            let [u, d, r, n, e] = [telemetered; SERVICES];
            hour.group(ENTER, resource, &[qse, 2, u, d, r, n, e, 0, FIGURE_LIMIT]);
        }
        for service in 0..SERVICES {
            hour.prices(rng, service);
            for qse in hour.qses.clone() {
                let mut data = [QUANTITY_LIMIT; 11];
                data[0] = service as u32;
                for less in &mut data[7..] {
                    *less = rng.pick(&[0, QUANTITY_LIMIT]);
                }
                hour.group(QUANTITIES, qse, &data);
            }
        }
        for interval in 0..INTERVALS {
            hour.interval(rng, interval);
        }
        // The same prices and loads once more, so that nothing moves away from the limits.
        while hour.words.len() < FULL_WORDS {
            if (FULL_WORDS - hour.words.len()) % 2 == 1 {
                hour.interval(rng, 0);
            } else {
                let qse = rng.pick(&hour.qses);
                hour.enrol(rng, qse);
            }
        }
        hour
    }
}

#[derive(Clone, Copy, Debug, PartialEq, Eq)]
pub enum Sort {
    Valid,
    Damaged,
    Full,
}

/// A feed for both sides.
pub struct Case {
    pub sort: Sort,
    pub words: Vec<u32>,
}

impl Case {
    /// 60 of 100 valid, 35 damaged, 5 full.
    pub fn random(rng: &mut Rng) -> Case {
        let sort = match rng.below(100) {
            0..=59 => Sort::Valid,
            60..=94 => Sort::Damaged,
            _ => Sort::Full,
        };
        let hour = if sort == Sort::Full { Hour::full(rng) } else { Hour::random(rng) };
        let mut words = hour.words;
        if sort == Sort::Damaged {
            for _ in 0..rng.pick(&[1, 1, 1, 1, 2, 3]) {
                damage(rng, &mut words);
            }
        }
        Case { sort, words }
    }
}

/// Where the groups of the words begin, as far as they can be followed, and where the last ends.
fn boundaries(words: &[u32]) -> Vec<usize> {
    let mut at = vec![0];
    let mut head = 0;
    while let Some(needed) = words.get(head).and_then(|&word| data_words(split(word).0)) {
        head += 1 + needed;
        if head > words.len() {
            break;
        }
        at.push(head);
    }
    at
}

/// The limits of the fields of a group, its head's value first.
fn limits(kind: u32) -> Vec<u32> {
    const SERVICE: u32 = SERVICES as u32 - 1;
    const LAST_INTERVAL: u32 = INTERVALS as u32 - 1;
    match kind {
        ENROL => vec![NUMBER_LIMIT, LOAD_LIMIT],
        QUANTITIES => [&[NUMBER_LIMIT, SERVICE][..], &[QUANTITY_LIMIT; 10]].concat(),
        ENTER => [&[NUMBER_LIMIT, NUMBER_LIMIT, 2][..], &[FIGURE_LIMIT; 7]].concat(),
        STRIKE => vec![NUMBER_LIMIT],
        PRICES => [&[SERVICE][..], &[CAPACITY_PRICE_LIMIT; 3]].concat(),
        _ => [&[LAST_INTERVAL][..], &[INTERVAL_PRICE_LIMIT; 2]].concat(),
    }
}

/// A value outside a field's values.
fn outside(rng: &mut Rng, limit: u32) -> u32 {
    match rng.below(4) {
        0 if limit == NUMBER_LIMIT => 0,
        0 | 1 => limit + 1,
        2 => VALUE_LIMIT,
        _ => rng.between(limit + 1, VALUE_LIMIT),
    }
}

fn random_word(rng: &mut Rng) -> u32 {
    match rng.below(6) {
        0 => rng.word(),
        1 => rng.between(0, 20),
        2 => rng.between(1, 6) << 28 | rng.between(0, 5),
        3 => rng.between(1, 6) << 28 | rng.between(0, NUMBER_LIMIT + 1),
        4 => rng.word() & VALUE_LIMIT,
        _ => rng.pick(&[0, u32::MAX, 0x7000_0000, 0x8000_0001, 0xf000_0001]),
    }
}

/// A group of any kind with figures within their limits, but for QSEs and resources of any number.
fn random_group(rng: &mut Rng, kind: u32) -> Vec<u32> {
    let mut group: Vec<u32> = limits(kind).into_iter().map(|limit| Spread::Mixed.figure(rng, limit)).collect();
    if limits(kind)[0] == NUMBER_LIMIT {
        group[0] = rng.between(1, NUMBER_LIMIT);
    }
    group[0] |= kind << 28;
    group
}

/// Puts a field of a group outside its values. The kind of the head stays.
fn spoil(rng: &mut Rng, group: &mut [u32], field: usize) {
    let (kind, _) = split(group[0]);
    let value = outside(rng, limits(kind)[field]);
    group[field] = if field == 0 { kind << 28 | value } else { value };
}

fn insert(words: &mut Vec<u32>, at: usize, more: &[u32]) {
    words.splice(at..at, more.iter().copied());
}

/// Damages the words once, in one of many ways. At times the feed stays valid.
fn damage(rng: &mut Rng, words: &mut Vec<u32>) {
    let boundaries = boundaries(words);
    let place = if words.is_empty() { 0 } else { rng.below(words.len()) };
    // A group between two boundaries, where there is one.
    let groups = boundaries.len() - 1;
    let group = if groups == 0 { 0 } else { rng.below(groups) };
    let range = if groups == 0 { 0..0 } else { boundaries[group]..boundaries[group + 1] };
    let boundary = rng.pick(&boundaries);
    match rng.below(18) {
        0 if !words.is_empty() => words[place] ^= 1 << rng.below(32),
        1 => words.truncate(place),
        2 if !words.is_empty() => {
            let end = (place + 1 + rng.below(4)).min(words.len());
            words.drain(place..end);
        }
        3 => {
            let word = random_word(rng);
            insert(words, place, &[word]);
        }
        4 if !words.is_empty() => words[place] = random_word(rng),
        // One field, or several of a group, outside their values.
        5..=7 if !range.is_empty() => {
            let group = &mut words[range];
            for _ in 0..rng.pick(&[1, 1, 1, 1, 2, 4]) {
                let field = rng.below(group.len());
                spoil(rng, group, field);
            }
        }
        8 => overfill(rng, words, ENROL, QSE_SLOTS),
        9 => overfill(rng, words, ENTER, RESOURCE_SLOTS),
        10 if !range.is_empty() => {
            let kind = rng.pick(&[0, 7, 8, 9, 10, 11, 12, 13, 14, 15]);
            words[range.start] = kind << 28 | split(words[range.start]).1;
        }
        // One or two data words of a group get a kind.
        11 if range.len() > 1 => {
            for _ in 0..rng.pick(&[1, 2]) {
                words[range.start + 1 + rng.below(range.len() - 1)] |= rng.between(1, 15) << 28;
            }
        }
        // One group more, with several faults at once: which of them is given?
        12..=14 => {
            let mut more = words[range].to_vec();
            if more.is_empty() || rng.chance(50) {
                let kind = rng.pick(&[ENROL, QUANTITIES, ENTER, STRIKE, PRICES, INTERVAL]);
                more = random_group(rng, kind);
            }
            let fields = more.len();
            for field in 0..fields {
                if (field < 3 || field + 1 == fields) && rng.chance(35) {
                    spoil(rng, &mut more, field);
                }
            }
            insert(words, boundary, &more);
        }
        // A last group that is cut short, at times with a word of the wrong kind in it.
        15 => {
            words.truncate(boundary);
            let kind = rng.pick(&[ENROL, QUANTITIES, ENTER, PRICES, INTERVAL]);
            let mut more = random_group(rng, kind);
            more.truncate(1 + rng.below(more.len() - 1));
            let last = more.len() - 1;
            if rng.chance(30) {
                more[last] |= rng.between(1, 15) << 28;
            }
            words.extend(more);
        }
        // A group that names a QSE or a resource that hardly stands in the book.
        16 | 17 => {
            let kind = rng.pick(&[QUANTITIES, ENTER, STRIKE]);
            let more = random_group(rng, kind);
            insert(words, boundary, &more);
        }
        // The ways above that need words or a group, where there are none.
        _ => insert(words, 0, &[random_word(rng)]),
    }
}

/// Adds new rows of a kind until more than the slots would be taken. What follows still stands after them.
fn overfill(rng: &mut Rng, words: &mut Vec<u32>, kind: u32, slots: usize) {
    let first = rng.between(1, NUMBER_LIMIT - 400);
    let qse = rng.between(1, NUMBER_LIMIT);
    let mut more = Vec::new();
    if kind == ENTER {
        more.extend([ENROL << 28 | qse, 1]);
    }
    let rows = slots as u32 + rng.between(0, 2);
    for number in first..first + rows {
        let mut group = random_group(rng, kind);
        group[0] = kind << 28 | number;
        if kind == ENTER {
            group[1] = qse;
        }
        more.extend(group);
    }
    // At times the last one has a QSE that is not enrolled, or is faulty besides.
    let last = more.len() - limits(kind).len();
    if rng.chance(30) {
        let field = rng.below(more.len() - last);
        spoil(rng, &mut more[last..], field);
    } else if kind == ENTER && rng.chance(30) {
        more[last + 1] = rng.between(1, NUMBER_LIMIT);
    }
    let at = if rng.chance(50) { 0 } else { words.len() };
    insert(words, at, &more);
}

#[cfg(test)]
mod tests {
    use super::*;
    use crate::model::Book;

    #[test]
    fn valid_and_full_hours_have_no_fault() {
        for seed in 0..400 {
            let case = Case::random(&mut Rng::new(seed));
            let fault = Book::opened(7).feed(&case.words).err();
            assert!(case.sort == Sort::Damaged || fault.is_none(), "seed {seed}: {fault:?}");
            assert!(case.sort != Sort::Full || case.words.len() == FULL_WORDS);
        }
    }

    #[test]
    fn damaged_hours_have_every_fault_of_a_feed() {
        let mut numbers = std::collections::BTreeSet::new();
        for seed in 0..1_000 {
            let case = Case::random(&mut Rng::new(seed));
            if let Err(fault) = Book::opened(7).feed(&case.words) {
                numbers.insert(fault.refusal.number());
            }
        }
        // No draft is open, so 1 is not among them.
        assert_eq!(Vec::from_iter(numbers), [2, 3, 4, 5, 6, 9, 10, 11]);
    }
}
