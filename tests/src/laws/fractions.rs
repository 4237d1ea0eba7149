//! Fractions from residues under two primes: all residues of small primes, drawn ones, those at the limits and beyond them, places
//! without a fraction, words that are no residues, and every set of faults.

use super::Laws;
use crate::calls::fractions::CALL;
use crate::calls::Answer;
use crate::case::{Buffer, Case};
use crate::cases;
use crate::fractions::{Fraction, Primes, Residues};
use crate::refusals::{Reply, LARGEST_PRIME};

const SMALL: [u32; 11] = [2, 3, 5, 7, 11, 13, 17, 19, 23, 29, 31];

/// Every ordered pair of them.
pub const SMALL_PAIRS: u64 = (SMALL.len() * (SMALL.len() - 1)) as u64;

/// Primes to here have a product for which all denominators are tried.
const MIDDLING: u32 = 4_000;

/// Large primes, small ones beside large ones, and, as the last three, such whose product is next to twice a square.
const EXTREME: [(u32, u32); 13] = [
    (LARGEST_PRIME, 2_147_483_629),
    (2_147_483_629, 2_147_483_587),
    (2_147_483_579, LARGEST_PRIME),
    (2, LARGEST_PRIME),
    (3, 2_147_483_629),
    (5, LARGEST_PRIME),
    (7, 2_147_483_587),
    (46_327, 46_337),
    (46_337, LARGEST_PRIME),
    (65_537, 2_147_483_629),
    (2, 2_146_098_277),
    (2_147_315_689, 2_147_315_143),
    (2_147_475_973, 2_147_239_427),
];

/// Each of them in both orders.
pub const EXTREME_PAIRS: u64 = 2 * EXTREME.len() as u64;

const SIZES: [usize; 7] = [1, 2, 3, 4, 10, 1_023, 1_024];

/// All sets of the call's faults.
pub const FAULT_SETS: u64 = 1 << 11;

/// Residues, and their fraction if there is one.
type Place = (Residues, Option<Fraction>);

impl Laws {
    /// All residues of two small primes, one by one and at once, and at once all that have a fraction.
    pub fn small_fractions(&mut self) -> Result<(), String> {
        let pairs = SMALL.iter().flat_map(|&p| SMALL.map(|q| (p, q))).filter(|(p, q)| p != q);
        let (p, q) = pairs.collect::<Vec<_>>()[self.number as usize];
        let primes = Primes::new(p, q);
        let all = (0..p).flat_map(|x| (0..q).map(move |y| (x, y)));
        let all: Vec<Place> = all.map(|residues| (residues, primes.among_pairs(residues))).collect();
        all.iter().try_for_each(|&place| self.have(&primes, &[place]))?;
        self.have(&primes, &all)?;
        let found: Vec<Place> = all.into_iter().filter(|(_, fraction)| fraction.is_some()).collect();
        self.have(&primes, &found)
    }

    pub fn middling_fractions(&mut self) -> Result<(), String> {
        self.drawn_fractions(MIDDLING)
    }

    pub fn large_fractions(&mut self) -> Result<(), String> {
        self.drawn_fractions(LARGEST_PRIME)
    }

    /// Residues as they come, one by one, and at once those that have a fraction.
    fn drawn_fractions(&mut self, most: u32) -> Result<(), String> {
        let primes = Primes::draw(most, &mut self.random);
        let mut found = vec![];
        for _ in 0..4 {
            let residues = primes.draw_residues(&mut self.random);
            let place = (residues, primes.fraction(residues));
            self.have(&primes, &[place])?;
            found.extend(place.1.is_some().then_some(place));
        }
        if found.is_empty() {
            return Ok(());
        }
        self.have(&primes, &found)
    }

    /// Pairs at the limits come back; those just beyond them do not, and most of their residues have no other fraction.
    pub fn extreme_fractions(&mut self) -> Result<(), String> {
        let (p, q) = EXTREME[self.number as usize / 2];
        let primes = if self.number.is_multiple_of(2) { Primes::new(p, q) } else { Primes::new(q, p) };
        let (within, beyond): (Vec<Fraction>, _) = near_the_limits(&primes).into_iter().partition(|&pair| primes.is_within(pair));
        let known: Vec<Place> = within.into_iter().map(|pair| (primes.residues(pair), Some(pair))).collect();
        known.iter().try_for_each(|&place| self.have(&primes, &[place]))?;
        self.have(&primes, &known)?;
        let beyond = beyond.into_iter().map(|pair| primes.residues(pair));
        let beyond: Vec<Place> = beyond.map(|residues| (residues, primes.fraction(residues))).collect();
        if known.is_empty() || beyond.iter().all(|(_, other)| other.is_some()) {
            return Err(format!("no pair at the limits, or beyond them none without another fraction: {primes:?}"));
        }
        beyond.iter().try_for_each(|&place| self.have(&primes, &[place]))
    }

    /// The first place without a fraction is named: the first of all, the last, one between, and of several the first.
    pub fn places_without(&mut self) -> Result<(), String> {
        let (n, primes) = (SIZES[self.number as usize % SIZES.len()], self.draw_primes());
        let known = self.draw_known(&primes, n);
        self.have(&primes, &known)?;
        let (middle, any) = (n.div_ceil(2), self.between(1, n as u32));
        let several = [vec![1, n], vec![middle, n], vec![any, middle], (any..=n).collect()];
        for without in [1, n, middle, any].map(|place| vec![place]).into_iter().chain(several) {
            let mut places = known.clone();
            for place in without {
                places[place - 1] = (primes.draw_without(&mut self.random), None);
            }
            self.have(&primes, &places)?;
        }
        Ok(())
    }

    /// A word not below its prime in any place of either column, also below the other prime; not so behind the last place.
    pub fn bad_residues(&mut self) -> Result<(), String> {
        let (n, primes) = (1 + self.number as usize % 12, self.draw_primes());
        let known = self.draw_known(&primes, n);
        let mut sound = self.fractions_case(&primes, &known);
        for (buffer, place) in [1, 2].into_iter().flat_map(|buffer| (1..=n).map(move |place| (buffer, place))) {
            let prime = if buffer == 1 { primes.p } else { primes.q };
            for word in [prime, prime + 1, u32::MAX] {
                let owed = Answer::refused(Reply { number: 5, buffer, row: place as u32, value: 0 });
                let mut case = sound.clone();
                case.buffer_mut(buffer).words[place - 1] = word;
                self.answers(&CALL, &case, &owed)?;
                case.buffer_mut(buffer).words[place..n].fill(u32::MAX);
                case.buffer_mut(2).words[n - 1] = u32::MAX;
                self.answers(&CALL, &case, &owed)?;
            }
        }
        for buffer in [1, 2] {
            sound.buffer_mut(buffer).words.truncate(n);
            sound.buffer_mut(buffer).words.extend([primes.p, primes.q, u32::MAX]);
        }
        self.answers(&CALL, &sound, &owed(&known))
    }

    /// Every set of faults, planted in a case of its own: the first cause in the order of the checks decides.
    pub fn fault_sets(&mut self) -> Result<(), String> {
        self.fault_set(&CALL, FAULT_SETS)
    }

    /// These fractions are owed, or the first place without one.
    fn have(&mut self, primes: &Primes, places: &[Place]) -> Result<(), String> {
        let case = self.fractions_case(primes, places);
        self.answers(&CALL, &case, &owed(places))
    }

    fn fractions_case(&mut self, primes: &Primes, places: &[Place]) -> Case {
        let (first, second) = places.iter().map(|&(residues, _)| residues).unzip();
        let mut any = || (0..places.len()).map(|_| self.random.word()).collect();
        let words: [Vec<u32>; 4] = [first, second, any(), any()];
        let lent = CALL.buffers.iter().zip(words).map(|(&(number, holds), words)| Buffer::new(number, holds, words));
        let (n, buffers) = (places.len() as u32, lent.collect());
        let mut case = Case { p: primes.p, q: primes.q, n, orders: vec![], place: (1, 1), k: 1, c: 1, buffers, faults: vec![] };
        cases::add_surplus(&mut case, &mut self.random);
        case
    }

    fn draw_primes(&mut self) -> Primes {
        let p = cases::draw_prime(&mut self.random);
        Primes::new(p, cases::draw_other_prime(p, &mut self.random))
    }

    /// So many places with fractions.
    fn draw_known(&mut self, primes: &Primes, n: usize) -> Vec<Place> {
        let drawn = (0..n).map(|_| primes.draw_fraction(&mut self.random));
        drawn.map(|fraction| (primes.residues(fraction), Some(fraction))).collect()
    }
}

fn owed(places: &[Place]) -> Answer {
    Answer::fractions(&places.iter().map(|&(_, fraction)| fraction).collect::<Vec<_>>())
}

/// Proper fractions with numerators and denominators at their limits, two below them and two beyond.
fn near_the_limits(primes: &Primes) -> Vec<Fraction> {
    let near = || (-2..=2).map(|more| primes.bound + more);
    let numerators = (-2..=2).chain(near()).chain(near().map(|size| -size));
    let pairs = numerators.flat_map(|numerator| (1..=3).chain(near()).map(move |denominator| (numerator, denominator)));
    pairs.filter(|&pair| primes.is_proper(pair)).collect()
}
