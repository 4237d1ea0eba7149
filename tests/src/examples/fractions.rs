//! The examples of fractions.

use super::{case, Examples, ANY};
use crate::calls::fractions::CALL;
use crate::case::Case;
use crate::refusals::LARGEST_PRIME;

const SECOND_LARGEST: u32 = 2_147_483_629;

/// B of the two largest primes.
const LARGEST_BOUND: i32 = 1_518_500_242;

/// Under 5 and 7, where B is 4: 3/2, −1/2, 0, 4, −4, 3/4, −3/4.
const FIRST: [u32; 7] = [4, 2, 0, 4, 1, 2, 3];
const SECOND: [u32; 7] = [5, 3, 0, 4, 3, 6, 1];
const NUMERATORS: [i32; 7] = [3, -1, 0, 4, -4, 3, -3];
const DENOMINATORS: [u32; 7] = [2, 2, 1, 1, 1, 4, 4];

/// A case with room for as many fractions as there are first residues.
fn residues_case(p: u32, q: u32, first: &[u32], second: &[u32]) -> Case {
    let room = vec![8; first.len()];
    let lent = case(&CALL, p, first.len() as u32, (0, 0), &[first, second, &room, &room]);
    Case { q, orders: vec![], ..lent }
}

/// The seven residues with some numbers changed.
fn with_numbers(p: u32, q: u32, n: u32) -> Case {
    Case { n, ..residues_case(p, q, &FIRST, &SECOND) }
}

impl Examples<'_> {
    pub fn of_fractions(&mut self) -> Result<(), String> {
        self.under_5_and_7()?;
        self.under_2_and_another()?;
        self.under_the_largest_primes()?;
        self.beyond_the_bound()?;
        self.columns_as_one_buffer()?;
        self.numbers_of_fractions()?;
        self.short_buffers_of_fractions()?;
        self.bad_residues()?;
        self.places_without()
    }

    fn has_fractions(&mut self, case: Case, numerators: &[i32], denominators: &[u32]) -> Result<(), String> {
        let numerators: Vec<u32> = numerators.iter().map(|&numerator| numerator as u32).collect();
        self.expect(&CALL, case, [0; 4], &[(4, &numerators), (5, denominators)])
    }

    fn has_none(&mut self, p: u32, q: u32, first: &[u32], second: &[u32], place: u32) -> Result<(), String> {
        self.refuses(&CALL, residues_case(p, q, first, second), 12, 0, place)
    }

    /// Also with the primes and their columns exchanged, and with surplus.
    fn under_5_and_7(&mut self) -> Result<(), String> {
        self.has_fractions(residues_case(5, 7, &FIRST, &SECOND), &NUMERATORS, &DENOMINATORS)?;
        self.has_fractions(residues_case(7, 5, &SECOND, &FIRST), &NUMERATORS, &DENOMINATORS)?;
        let mut longer = residues_case(5, 7, &FIRST, &SECOND);
        longer.buffers.iter_mut().for_each(|buffer| buffer.words.extend([ANY, 7, 5]));
        self.has_fractions(longer, &NUMERATORS, &DENOMINATORS)?;
        self.has_fractions(with_numbers(5, 7, 3), &NUMERATORS[..3], &DENOMINATORS[..3])?;
        self.has_none(5, 7, &[1], &[6], 1)
    }

    /// B is 1 for 2 and 3. For 2 and 7 it is 2, and 1/2, which is 4 under 7, has a denominator that is divisible by 2.
    fn under_2_and_another(&mut self) -> Result<(), String> {
        self.has_fractions(residues_case(2, 3, &[0, 1, 1], &[0, 1, 2]), &[0, 1, -1], &[1, 1, 1])?;
        self.has_fractions(residues_case(3, 2, &[0, 1, 2], &[0, 1, 1]), &[0, 1, -1], &[1, 1, 1])?;
        for (x, y) in [(0, 1), (0, 2), (1, 0)] {
            self.has_none(2, 3, &[x], &[y], 1)?;
            self.has_none(3, 2, &[y], &[x], 1)?;
        }
        for x in [0, 1] {
            self.has_none(2, 7, &[x], &[4], 1)?;
            self.has_none(7, 2, &[4], &[x], 1)?;
        }
        self.has_fractions(
            residues_case(2, LARGEST_PRIME, &[0, 0], &[385_433_901, 1_762_049_746]),
            &[46_340, -46_340],
            &[46_339; 2],
        )?;
        self.has_fractions(residues_case(3, SECOND_LARGEST, &[0, 1], &[811_204_327, 1_336_279_303]), &[56_754, 1], &[56_755; 2])
    }

    fn under_the_largest_primes(&mut self) -> Result<(), String> {
        let first = [628_983_405, 1_518_500_242, 1_070_361_917, 1_077_121_730, 689_343_530, 1_458_140_116, 149_615_191];
        let second = [628_983_387, 1_518_500_242, 461_628_558, 1_685_855_071, 133_142_154, 2_014_341_474, 528_402_152];
        const B: i32 = LARGEST_BOUND;
        let numerators = [-B, B, B, -B, 1 - B, -1, 123_456_789];
        const D: u32 = LARGEST_BOUND as u32;
        let denominators = [1, 1, D - 1, D - 1, D, D, 987_654_322];
        self.has_fractions(residues_case(LARGEST_PRIME, SECOND_LARGEST, &first, &second), &numerators, &denominators)?;
        self.has_fractions(residues_case(SECOND_LARGEST, LARGEST_PRIME, &second, &first), &numerators, &denominators)
    }

    /// B + 1, −B − 1, 1/(B + 1) and −1/(B + 1) under the largest primes.
    fn beyond_the_bound(&mut self) -> Result<(), String> {
        let first = [1_518_500_243, 628_983_404, 970_194_207, 1_177_289_440];
        let second = [1_518_500_243, 628_983_386, 320_829_005, 1_826_654_624];
        for (x, y) in first.into_iter().zip(second) {
            self.has_none(LARGEST_PRIME, SECOND_LARGEST, &[x], &[y], 1)?;
            self.has_none(SECOND_LARGEST, LARGEST_PRIME, &[y], &[x], 1)?;
        }
        Ok(())
    }

    /// Whole numbers below both primes have the same residues under both.
    fn columns_as_one_buffer(&mut self) -> Result<(), String> {
        let mut same = residues_case(5, 7, &[4, 0, 3], &[4, 0, 3]);
        same.buffers[1].shared = true;
        self.has_fractions(same.clone(), &[4, 0, 3], &[1; 3])?;
        (same.p, same.q) = (7, 3);
        self.refuses(&CALL, same, 5, 2, 1)
    }

    /// 1, then 11, then 2, whatever the buffers are.
    fn numbers_of_fractions(&mut self) -> Result<(), String> {
        for p in [0, 1, 4, 9, 2_047, 2_147_483_648, 2_147_483_659, 4_294_967_291, ANY] {
            for (p, q) in [(p, 7), (7, p), (p, p), (p, 9)] {
                self.refuses(&CALL, with_numbers(p, q, 7), 1, 0, 0)?;
            }
            self.refuses(&CALL, Case { n: 0, ..residues_case(p, p, &[], &[]) }, 1, 0, 0)?;
        }
        for p in [2, 7, SECOND_LARGEST, LARGEST_PRIME] {
            self.refuses(&CALL, with_numbers(p, p, 7), 11, 0, 0)?;
            self.refuses(&CALL, with_numbers(p, p, 0), 11, 0, 0)?;
        }
        for n in [0, 1_025, 65_537, ANY] {
            self.refuses(&CALL, with_numbers(5, 7, n), 2, 0, 0)?;
        }
        Ok(())
    }

    /// Of several short buffers the lowest is named, before any word is looked at; all may be NULL.
    fn short_buffers_of_fractions(&mut self) -> Result<(), String> {
        let with = |lengths: [usize; 4], n: u32| {
            let mut case = Case { n, ..residues_case(5, 7, &[ANY; 7], &[ANY; 7]) };
            case.buffers.iter_mut().zip(lengths).for_each(|(buffer, length)| buffer.words.truncate(length));
            case
        };
        self.refuses(&CALL, with([6, 6, 6, 6], 7), 4, 1, 0)?;
        self.refuses(&CALL, with([6, 7, 7, 7], 7), 4, 1, 0)?;
        self.refuses(&CALL, with([7, 6, 6, 6], 7), 4, 2, 0)?;
        self.refuses(&CALL, with([7, 7, 6, 6], 7), 4, 4, 0)?;
        self.refuses(&CALL, with([7, 7, 7, 6], 7), 4, 5, 0)?;
        self.refuses(&CALL, with([7, 7, 7, 0], 1_024), 4, 1, 0)?;
        for n in [0, 1] {
            let mut nothing = with([0; 4], n);
            nothing.buffers.iter_mut().for_each(|buffer| buffer.null = true);
            let (number, buffer) = if n == 0 { (2, 0) } else { (4, 1) };
            self.refuses(&CALL, nothing, number, buffer, 0)?;
        }
        Ok(())
    }

    /// Each column has its own prime; the first column comes first, then the first place. 5 comes before 12.
    fn bad_residues(&mut self) -> Result<(), String> {
        let with = |first: [u32; 3], second: [u32; 3]| residues_case(5, 7, &first, &second);
        self.refuses(&CALL, with([5, 0, 0], [0; 3]), 5, 1, 1)?;
        self.refuses(&CALL, with([0, ANY, 5], [7; 3]), 5, 1, 2)?;
        self.refuses(&CALL, with([0, 0, 6], [7; 3]), 5, 1, 3)?;
        self.refuses(&CALL, with([0; 3], [7, 0, 0]), 5, 2, 1)?;
        self.refuses(&CALL, with([0; 3], [0, 8, ANY]), 5, 2, 2)?;
        self.refuses(&CALL, with([1, 0, 0], [6, 0, 7]), 5, 2, 3)
    }

    /// 1 and 6 have no fraction under 5 and 7: in the first place, one between and the last, and of several the first counts.
    fn places_without(&mut self) -> Result<(), String> {
        for (places, first) in [(&[0][..], 1), (&[3], 4), (&[6], 7), (&[6, 2], 3), (&[1, 2, 3, 4, 5, 6], 2), (&[0, 6], 1)] {
            let mut case = residues_case(5, 7, &FIRST, &SECOND);
            places.iter().for_each(|&place| case.set_residues(place + 1, (1, 6)));
            self.refuses(&CALL, case, 12, 0, first)?;
        }
        Ok(())
    }
}
