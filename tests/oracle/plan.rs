//! Plans: reading, checking, writing, the order of links, the ceiling.

/// "none" where a link number may stand.
pub const NONE: u16 = 65535;

pub const MOST_MODULES: u16 = 192;
pub const MOST_LINKS: usize = 600;
pub const MOST_READING: u16 = 2000;

#[derive(Clone, Copy, Debug, PartialEq, Eq)]
pub struct Link {
    pub lower: u16,
    pub higher: u16,
    pub at_lower: u16,
    pub at_higher: u16,
}

#[derive(Clone, Debug, PartialEq, Eq)]
pub struct Plan {
    pub modules: u16,
    pub links: Vec<Link>,
}

/// Integers are 16-bit big-endian.
pub fn be16(bytes: &[u8], at: usize) -> u16 {
    u16::from_be_bytes([bytes[at], bytes[at + 1]])
}

/// Reads a plan, or answers the first of the refusals 11 to 18 that applies.
pub fn read(bytes: &[u8]) -> Result<Plan, u32> {
    if bytes.len() < 3 {
        return Err(11);
    }
    if bytes[0] != 1 {
        return Err(12);
    }
    let length = be16(bytes, 1) as usize;
    if length != bytes.len() - 3 || length < 4 {
        return Err(13);
    }
    let (n, l) = (be16(bytes, 3), be16(bytes, 5) as usize);
    if n > MOST_MODULES {
        return Err(14);
    }
    if l > MOST_LINKS || length != 4 + 8 * l {
        return Err(15);
    }
    let links = bytes[7..].chunks_exact(8).map(|b| Link {
        lower: be16(b, 0),
        higher: be16(b, 2),
        at_lower: be16(b, 4),
        at_higher: be16(b, 6),
    });
    let plan = Plan { modules: n, links: links.collect() };
    plan.check()?;
    Ok(plan)
}

/// Writes a plan at the front of `out`, or answers 14 to 18, then 22; bytes past the plan keep.
pub fn write(plan: &Plan, out: &mut [u8]) -> Result<usize, u32> {
    plan.check()?;
    let bytes = plan.encode();
    if out.len() < bytes.len() {
        return Err(22);
    }
    out[..bytes.len()].copy_from_slice(&bytes);
    Ok(bytes.len())
}

impl Plan {
    /// Refusals 14 to 18 of a plan value. There is no length here, so 15 is for L above 600 alone.
    pub fn check(&self) -> Result<(), u32> {
        if self.modules > MOST_MODULES {
            return Err(14);
        }
        if self.links.len() > MOST_LINKS {
            return Err(15);
        }
        for (k, link) in self.links.iter().enumerate() {
            if link.lower >= link.higher || link.higher >= self.modules {
                return Err(16);
            }
            if k > 0 {
                let before = self.links[k - 1];
                if (before.lower, before.higher) >= (link.lower, link.higher) {
                    return Err(17);
                }
            }
            if link.at_lower > MOST_READING || link.at_higher > MOST_READING {
                return Err(18);
            }
        }
        Ok(())
    }

    /// "A plan in several parts": for each module the lowest one of its part, the modules that links lead to from it. The
    /// lower of two labels is carried over the links until nothing changes.
    pub fn parts(&self) -> Vec<u16> {
        let mut lowest: Vec<u16> = (0..self.modules).collect();
        loop {
            let mut changed = false;
            for link in &self.links {
                let (a, b) = (link.lower as usize, link.higher as usize);
                let least = lowest[a].min(lowest[b]);
                changed |= lowest[a] != lowest[b];
                (lowest[a], lowest[b]) = (least, least);
            }
            if !changed {
                return lowest;
            }
        }
    }

    /// The lowest module of each part, by number.
    pub fn lowest_modules(&self) -> Vec<u16> {
        let parts = self.parts();
        (0..self.modules).filter(|v| parts[*v as usize] == *v).collect()
    }

    /// The modules of v's part, by number.
    pub fn part_of(&self, v: u16) -> Vec<u16> {
        let parts = self.parts();
        (0..self.modules).filter(|u| parts[*u as usize] == parts[v as usize]).collect()
    }

    /// The bytes, whatever the values are: the generators of damaged plans write refused ones too.
    pub fn encode(&self) -> Vec<u8> {
        let mut out = vec![1];
        let mut put = |x: u16| out.extend_from_slice(&x.to_be_bytes());
        put((4 + 8 * self.links.len()) as u16);
        put(self.modules);
        put(self.links.len() as u16);
        for link in &self.links {
            put(link.lower);
            put(link.higher);
            put(link.at_lower);
            put(link.at_higher);
        }
        out
    }

    /// A link's cost is the larger of its two readings.
    pub fn cost(&self, k: u16) -> u32 {
        let link = self.links[k as usize];
        link.at_lower.max(link.at_higher) as u32
    }

    /// The sum of a link's readings.
    pub fn sum(&self, k: u16) -> u32 {
        let link = self.links[k as usize];
        link.at_lower as u32 + link.at_higher as u32
    }

    /// Links are compared by cost, then by the sum of the readings, then by number.
    pub fn key(&self, k: u16) -> (u32, u32, u16) {
        (self.cost(k), self.sum(k), k)
    }

    /// Link a is earlier than b; none is later than all.
    pub fn earlier(&self, a: u16, b: u16) -> bool {
        a != NONE && (b == NONE || self.key(a) < self.key(b))
    }

    /// The numbers of the links that end at module v, rising.
    pub fn own_links(&self, v: u16) -> Vec<u16> {
        let ends_at_v = |k: &u16| {
            let link = self.links[*k as usize];
            link.lower == v || link.higher == v
        };
        (0..self.links.len() as u16).filter(ends_at_v).collect()
    }

    pub fn top_level(&self) -> u16 {
        floor_log2(self.modules)
    }

    pub fn ceiling(&self) -> u32 {
        ceiling(self.modules, self.links.len() as u16)
    }
}

/// The floor of log2, by counting halvings; 0 below 2.
pub fn floor_log2(n: u16) -> u16 {
    let (mut rest, mut log) = (n, 0);
    while rest > 1 {
        rest /= 2;
        log += 1;
    }
    log
}

/// M = 5 × N × ⌊log2 N⌋ + 2 × L.
pub fn ceiling(n: u16, l: u16) -> u32 {
    5 * n as u32 * floor_log2(n) as u32 + 2 * l as u32
}
