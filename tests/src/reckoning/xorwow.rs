//! The generator of trial sheets: Marsaglia's xorwow (Xorshift RNGs, 2003). Written from the rules
//! alone (docs/RULES.md), never from the Rattle code; the comments name the rules that are met.

/// The six words (rule 12.2).
#[derive(Clone, Debug, PartialEq, Eq)]
pub struct Xorwow {
    x: u32,
    y: u32,
    z: u32,
    w: u32,
    v: u32,
    d: u32,
}

impl Xorwow {
    /// As each call starts (rules 12.2 and 12.3).
    pub fn new() -> Self {
        Xorwow {
            x: 123_456_789,
            y: 362_436_069,
            z: 521_288_629,
            w: 88_675_123,
            v: 5_783_321,
            d: 6_615_241,
        }
    }

    /// The next number. A shift to the left drops bits, and an addition its carry (rule 12.2).
    pub fn draw(&mut self) -> u32 {
        let t = self.x ^ (self.x >> 2);
        let v = (self.v ^ (self.v << 4)) ^ (t ^ (t << 1));
        *self = Xorwow {
            x: self.y,
            y: self.z,
            z: self.w,
            w: self.v,
            v,
            d: self.d.wrapping_add(362_437),
        };
        self.d.wrapping_add(self.v)
    }

    /// Throws numbers away.
    pub fn skip(&mut self, count: u32) {
        for _ in 0..count {
            self.draw();
        }
    }
}

impl Default for Xorwow {
    fn default() -> Self {
        Xorwow::new()
    }
}
