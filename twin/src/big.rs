//! Whole numbers without limit, and fractions of them, for the exact freeboard.

use std::cmp::Ordering;
use std::fmt;
use std::ops::{Add, Div, Mul, Neg, Sub};

/// Sizes: limbs of 32 bits from the least up, no zero limb on top.
mod size {
    use std::cmp::Ordering;

    pub fn trim(mut a: Vec<u32>) -> Vec<u32> {
        while a.last() == Some(&0) {
            a.pop();
        }
        a
    }

    pub fn bits(a: &[u32]) -> usize {
        a.last().map_or(0, |top| 32 * a.len() - top.leading_zeros() as usize)
    }

    pub fn compare(a: &[u32], b: &[u32]) -> Ordering {
        a.len().cmp(&b.len()).then_with(|| a.iter().rev().cmp(b.iter().rev()))
    }

    pub fn add(a: &[u32], b: &[u32]) -> Vec<u32> {
        let mut sum = Vec::with_capacity(a.len().max(b.len()) + 1);
        let mut carry = 0u64;
        for i in 0..a.len().max(b.len()) {
            let limb = |x: &[u32]| u64::from(x.get(i).copied().unwrap_or(0));
            carry += limb(a) + limb(b);
            sum.push(carry as u32);
            carry >>= 32;
        }
        sum.push(carry as u32);
        trim(sum)
    }

    /// Takes `b` from `a`, which is not smaller.
    pub fn subtract(a: &[u32], b: &[u32]) -> Vec<u32> {
        let mut borrow = false;
        let limbs = a.iter().enumerate().map(|(i, &limb)| {
            let (x, first) = limb.overflowing_sub(b.get(i).copied().unwrap_or(0));
            let (y, second) = x.overflowing_sub(borrow.into());
            borrow = first || second;
            y
        });
        trim(limbs.collect())
    }

    pub fn multiply(a: &[u32], b: &[u32]) -> Vec<u32> {
        let mut product = vec![0u32; a.len() + b.len()];
        for (i, &x) in a.iter().enumerate() {
            let mut carry = 0u64;
            for (j, &y) in b.iter().enumerate() {
                carry += u64::from(product[i + j]) + u64::from(x) * u64::from(y);
                product[i + j] = carry as u32;
                carry >>= 32;
            }
            product[i + b.len()] = carry as u32;
        }
        trim(product)
    }

    fn shift_up(a: &[u32], by: usize) -> Vec<u32> {
        let mut shifted = vec![0; by / 32];
        let mut carry = 0u64;
        for &limb in a {
            carry |= u64::from(limb) << (by % 32);
            shifted.push(carry as u32);
            carry >>= 32;
        }
        shifted.push(carry as u32);
        trim(shifted)
    }

    fn halve(a: &mut Vec<u32>) {
        let mut carry = 0;
        for limb in a.iter_mut().rev() {
            let low = *limb & 1;
            *limb = *limb >> 1 | carry << 31;
            carry = low;
        }
        if a.last() == Some(&0) {
            a.pop();
        }
    }

    /// Quotient and remainder by long division in base two; `b` is not zero.
    pub fn divide(a: &[u32], b: &[u32]) -> (Vec<u32>, Vec<u32>) {
        let mut rest = a.to_vec();
        let Some(shift) = bits(a).checked_sub(bits(b)) else {
            return (Vec::new(), rest);
        };
        let mut quotient = vec![0u32; shift / 32 + 1];
        let mut part = shift_up(b, shift);
        for i in (0..=shift).rev() {
            if compare(&rest, &part) != Ordering::Less {
                rest = subtract(&rest, &part);
                quotient[i / 32] |= 1 << (i % 32);
            }
            halve(&mut part);
        }
        (trim(quotient), rest)
    }

    /// Greatest common divisor, after Euclid.
    pub fn gcd(a: &[u32], b: &[u32]) -> Vec<u32> {
        let (mut a, mut b) = (a.to_vec(), b.to_vec());
        while !b.is_empty() {
            let rest = divide(&a, &b).1;
            a = std::mem::replace(&mut b, rest);
        }
        a
    }
}

/// A whole number of any size. Zero is not negative.
#[derive(Clone, Debug, PartialEq, Eq)]
pub struct Int {
    negative: bool,
    size: Vec<u32>,
}

impl Int {
    fn new(negative: bool, size: Vec<u32>) -> Int {
        Int { negative: negative && !size.is_empty(), size }
    }

    pub fn is_zero(&self) -> bool {
        self.size.is_empty()
    }

    pub fn bits(&self) -> usize {
        size::bits(&self.size)
    }

    pub fn to_f64(&self) -> f64 {
        let size =
            self.size.iter().rev().fold(0.0, |f, &limb| f * 4_294_967_296.0 + f64::from(limb));
        if self.negative {
            -size
        } else {
            size
        }
    }
}

impl From<i128> for Int {
    fn from(number: i128) -> Int {
        let size = number.unsigned_abs();
        let limbs = (0..4).map(|i| (size >> (32 * i)) as u32).collect();
        Int::new(number < 0, size::trim(limbs))
    }
}

impl Neg for Int {
    type Output = Int;
    fn neg(self) -> Int {
        Int::new(!self.negative, self.size)
    }
}

impl Add for &Int {
    type Output = Int;
    fn add(self, other: &Int) -> Int {
        if self.negative == other.negative {
            return Int::new(self.negative, size::add(&self.size, &other.size));
        }
        match size::compare(&self.size, &other.size) {
            Ordering::Less => Int::new(other.negative, size::subtract(&other.size, &self.size)),
            _ => Int::new(self.negative, size::subtract(&self.size, &other.size)),
        }
    }
}

impl Mul for &Int {
    type Output = Int;
    fn mul(self, other: &Int) -> Int {
        Int::new(self.negative != other.negative, size::multiply(&self.size, &other.size))
    }
}

impl PartialOrd for Int {
    fn partial_cmp(&self, other: &Int) -> Option<Ordering> {
        Some(self.cmp(other))
    }
}

impl Ord for Int {
    fn cmp(&self, other: &Int) -> Ordering {
        match (self.negative, other.negative) {
            (false, false) => size::compare(&self.size, &other.size),
            (true, true) => size::compare(&other.size, &self.size),
            (true, false) => Ordering::Less,
            (false, true) => Ordering::Greater,
        }
    }
}

impl fmt::Display for Int {
    fn fmt(&self, f: &mut fmt::Formatter) -> fmt::Result {
        let mut digits = String::new();
        let mut rest = self.size.clone();
        while !rest.is_empty() {
            let (quotient, digit) = size::divide(&rest, &[10]);
            digits.insert(0, char::from(b'0' + digit.first().map_or(0, |&d| d as u8)));
            rest = quotient;
        }
        f.pad_integral(!self.negative, "", if digits.is_empty() { "0" } else { &digits })
    }
}

/// A fraction in its lowest terms, the lower number above zero.
#[derive(Clone, Debug, PartialEq, Eq)]
pub struct Fraction {
    pub upper: Int,
    pub lower: Int,
}

impl Fraction {
    /// Lowest terms of a pair; the lower number is not zero.
    fn new(upper: Int, lower: Int) -> Fraction {
        let gcd = size::gcd(&upper.size, &lower.size);
        let reduced = |size: &[u32]| size::divide(size, &gcd).0;
        Fraction {
            upper: Int::new(upper.negative != lower.negative, reduced(&upper.size)),
            lower: Int::new(false, reduced(&lower.size)),
        }
    }

    pub fn is_negative(&self) -> bool {
        self.upper.negative
    }

    pub fn to_f64(&self) -> f64 {
        self.upper.to_f64() / self.lower.to_f64()
    }
}

/// The fraction upper / lower.
pub fn over(upper: impl Into<i128>, lower: i128) -> Fraction {
    Fraction::new(upper.into().into(), lower.into())
}

/// A whole number as a fraction.
pub fn whole(number: impl Into<i128>) -> Fraction {
    over(number, 1)
}

impl PartialOrd for Fraction {
    fn partial_cmp(&self, other: &Fraction) -> Option<Ordering> {
        Some(self.cmp(other))
    }
}

impl Ord for Fraction {
    fn cmp(&self, other: &Fraction) -> Ordering {
        (&self.upper * &other.lower).cmp(&(&other.upper * &self.lower))
    }
}

impl Neg for Fraction {
    type Output = Fraction;
    fn neg(self) -> Fraction {
        Fraction { upper: -self.upper, lower: self.lower }
    }
}

impl Add for &Fraction {
    type Output = Fraction;
    fn add(self, other: &Fraction) -> Fraction {
        let upper = &(&self.upper * &other.lower) + &(&other.upper * &self.lower);
        Fraction::new(upper, &self.lower * &other.lower)
    }
}

impl Sub for &Fraction {
    type Output = Fraction;
    fn sub(self, other: &Fraction) -> Fraction {
        self + &-other.clone()
    }
}

impl Mul for &Fraction {
    type Output = Fraction;
    fn mul(self, other: &Fraction) -> Fraction {
        Fraction::new(&self.upper * &other.upper, &self.lower * &other.lower)
    }
}

/// The divisor is not zero.
impl Div for &Fraction {
    type Output = Fraction;
    fn div(self, other: &Fraction) -> Fraction {
        Fraction::new(&self.upper * &other.lower, &self.lower * &other.upper)
    }
}

/// The same four for every mixture of owned and borrowed fractions.
macro_rules! also_owned {
    ($($operation:ident $name:ident),*) => {$(
        impl $operation<Fraction> for Fraction {
            type Output = Fraction;
            fn $name(self, other: Fraction) -> Fraction {
                (&self).$name(&other)
            }
        }
        impl $operation<&Fraction> for Fraction {
            type Output = Fraction;
            fn $name(self, other: &Fraction) -> Fraction {
                (&self).$name(other)
            }
        }
        impl $operation<Fraction> for &Fraction {
            type Output = Fraction;
            fn $name(self, other: Fraction) -> Fraction {
                self.$name(&other)
            }
        }
    )*};
}

also_owned!(Add add, Sub sub, Mul mul, Div div);

impl std::iter::Sum for Fraction {
    fn sum<I: Iterator<Item = Fraction>>(terms: I) -> Fraction {
        terms.fold(whole(0), |sum, term| sum + term)
    }
}

impl fmt::Display for Fraction {
    fn fmt(&self, f: &mut fmt::Formatter) -> fmt::Result {
        write!(f, "{}/{}", self.upper, self.lower)
    }
}

#[cfg(test)]
mod tests {
    use super::*;

    fn int(number: i128) -> Int {
        number.into()
    }

    /// Small numbers against the machine's own arithmetic.
    #[test]
    fn agrees_with_i128_where_that_reaches() {
        let near = |n: i128| [n - 1, n, n + 1];
        let numbers: Vec<i128> = [0, 10, 1 << 31, 1 << 32, 1 << 33, (1 << 62) + 12345]
            .into_iter()
            .flat_map(near)
            .flat_map(|n| [n, -n])
            .collect();
        for &a in &numbers {
            assert_eq!(int(a).to_string(), a.to_string());
            for &b in &numbers {
                assert_eq!(&int(a) + &int(b), int(a + b));
                assert_eq!(int(a).cmp(&int(b)), a.cmp(&b));
                assert_eq!(&int(a) * &int(b), int(a * b));
                if b != 0 {
                    let size = |n: i128| int(n.abs()).size;
                    let (quotient, rest) = size::divide(&size(a), &size(b));
                    assert_eq!(
                        (quotient, rest),
                        (size(a.abs() / b.abs()), size(a.abs() % b.abs()))
                    );
                    let fraction = over(a, b);
                    assert_eq!(&fraction * &whole(b), whole(a));
                    assert_eq!(fraction < over(1, 3), (3 * a < b) == (b > 0) && 3 * a != b);
                }
            }
        }
    }

    #[test]
    fn large_products_divide_back() {
        let a = (1..40).fold(int(1), |product, i| &product * &int(1_000_000_007 * i));
        let b = (1..20).fold(int(-3), |product, i| &product * &int(998_244_353 + i));
        let product = &a * &b;
        assert!(product.bits() > 1500);
        let (quotient, rest) = size::divide(&product.size, &b.size);
        assert_eq!((quotient, rest), (a.size.clone(), Vec::new()));
        let (quotient, rest) = size::divide(&(&product + &int(-5)).size, &b.size);
        assert_eq!((quotient, rest), (a.size.clone(), vec![5]));
        assert_eq!(size::gcd(&product.size, &a.size), a.size);
    }

    #[test]
    fn fractions_are_in_lowest_terms() {
        assert_eq!(over(6, -4).to_string(), "-3/2");
        assert_eq!((over(1, 6) + over(1, 3)).to_string(), "1/2");
        assert_eq!((over(1, 6) - over(1, 6)).to_string(), "0/1");
        assert_eq!((over(7, 3) / over(-14, 9)).to_string(), "-3/2");
    }
}
