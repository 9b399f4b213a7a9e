//! What describes a field, and ordinary arithmetic in it.

/// The modulus p = 2^64 − 2^32 + 1 of field 1.
pub const P: u64 = 0xffff_ffff_0000_0001;

/// The modulus q = 2^31 − 2^27 + 1 of field 2.
pub const Q: u64 = 2_013_265_921;

/// c0 and c1 of an element c0 + c1·u.
pub type Pair = [u64; 2];

/// What describes a field.
#[derive(Clone, Copy, Debug, PartialEq, Eq)]
pub struct Field {
    /// The number that calls know it by.
    pub number: u64,
    pub modulus: u64,
    /// What c0 and c1 are below; a field without a second coordinate has c1 below 1.
    pub bounds: Pair,
    /// u², which elements without a second coordinate never meet.
    pub(crate) u_squared: u64,
    /// The logarithm of the greatest order that is a power of two.
    pub(crate) two_adicity: u32,
    /// The generator of that order.
    pub(crate) root: u64,
    /// The longest shared period.
    pub longest_period: u64,
}

impl Field {
    /// Elements c0 + c1·u modulo p, with u² = 7; the root is 7^(2^32 − 1).
    pub const GOLDILOCKS: Self = Self {
        number: 1,
        modulus: P,
        bounds: [P, P],
        u_squared: 7,
        two_adicity: 32,
        root: 1_753_635_133_440_165_772,
        longest_period: 1 << 32,
    };

    /// Residues modulo q; the root is 31^15.
    pub const BABY_BEAR: Self = Self {
        number: 2,
        modulus: Q,
        bounds: [Q, 1],
        u_squared: 0,
        two_adicity: 27,
        root: 440_564_289,
        longest_period: 1 << 27,
    };

    pub const ALL: [Self; 2] = [Self::GOLDILOCKS, Self::BABY_BEAR];

    /// The field that calls know by this number.
    pub fn numbered(number: u64) -> Option<Self> {
        Self::ALL.into_iter().find(|field| field.number == number)
    }

    /// Whether these are the coordinates of an element.
    pub fn has(self, [c0, c1]: Pair) -> bool {
        c0 < self.bounds[0] && c1 < self.bounds[1]
    }

    /// Any two words brought below their bounds.
    pub fn reduced(self, [c0, c1]: Pair) -> Pair {
        [c0 % self.bounds[0], c1 % self.bounds[1]]
    }

    /// (a + b) modulo the modulus.
    pub fn add(self, a: u64, b: u64) -> u64 {
        ((a as u128 + b as u128) % self.modulus as u128) as u64
    }

    /// (a − b) modulo the modulus, for b at most that.
    pub fn sub(self, a: u64, b: u64) -> u64 {
        self.add(a, self.modulus - b)
    }

    /// a·b modulo the modulus.
    pub fn mul(self, a: u64, b: u64) -> u64 {
        (a as u128 * b as u128 % self.modulus as u128) as u64
    }

    /// −1.
    pub fn minus_one(self) -> u64 {
        self.modulus - 1
    }

    /// `base` to the power `exponent`.
    pub fn power(self, base: u64, exponent: u64) -> u64 {
        let (mut result, mut square, mut rest) = (1, base, exponent);
        while rest > 0 {
            if rest % 2 == 1 {
                result = self.mul(result, square);
            }
            square = self.mul(square, square);
            rest /= 2;
        }
        result
    }

    /// The inverse of a nonzero residue.
    pub fn inverse(self, a: u64) -> u64 {
        self.power(a, self.modulus - 2)
    }

    /// The generator of order 2^`bits`.
    pub fn generator(self, bits: u32) -> u64 {
        self.power(self.root, 1 << (self.two_adicity - bits))
    }

    /// The sum of two elements.
    pub fn pair_add(self, [a0, a1]: Pair, [b0, b1]: Pair) -> Pair {
        [self.add(a0, b0), self.add(a1, b1)]
    }

    /// The difference of two elements.
    pub fn pair_sub(self, [a0, a1]: Pair, [b0, b1]: Pair) -> Pair {
        [self.sub(a0, b0), self.sub(a1, b1)]
    }

    /// The product of two elements.
    pub fn pair_mul(self, [a0, a1]: Pair, [b0, b1]: Pair) -> Pair {
        let outer = self.mul(self.u_squared, self.mul(a1, b1));
        [self.add(self.mul(a0, b0), outer), self.add(self.mul(a0, b1), self.mul(a1, b0))]
    }
}
