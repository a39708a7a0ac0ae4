//! Plans of many shapes, as lists of tracks.

pub const POINTS: usize = 512;
pub const SIZES: [usize; 4] = [64, 256, 1024, 2048];

/// A track in the layout of the proved library's struct.
#[repr(C)]
#[derive(Clone, Copy)]
pub struct Given {
    pub first: u16,
    pub second: u16,
    pub shut: bool,
}

/// Numbers that look random, from a seed.
pub struct Numbers(pub u64);

impl Numbers {
    pub fn next(&mut self, below: usize) -> usize {
        ((self.word() >> 11) % below as u64) as usize
    }

    pub fn word(&mut self) -> u64 {
        self.0 ^= self.0 << 13;
        self.0 ^= self.0 >> 7;
        self.0 ^= self.0 << 17;
        self.0
    }
}

pub fn open(first: usize, second: usize) -> Given {
    Given { first: first as u16, second: second as u16, shut: false }
}

/// Any two points, now and then the same twice, and one track in eight shut.
pub fn random(tracks: usize, numbers: &mut Numbers) -> Vec<Given> {
    (0..tracks)
        .map(|_| {
            let first = numbers.next(POINTS);
            let second = if numbers.next(16) == 0 { first } else { numbers.next(POINTS) };
            Given { shut: numbers.next(8) == 0, ..open(first, second) }
        })
        .collect()
}

/// From each point to the next, again and again.
pub fn path(tracks: usize, _: &mut Numbers) -> Vec<Given> {
    (0..tracks).map(|k| open(k % (POINTS - 1), k % (POINTS - 1) + 1)).collect()
}

/// 256 parallel roads, their neighbouring ends joined on either side, again and again.
pub fn fan(tracks: usize, _: &mut Numbers) -> Vec<Given> {
    (0..tracks)
        .map(|k| match k % 766 {
            k @ 0..256 => open(k, 256 + k),
            k @ 256..511 => open(k - 256, k - 255),
            k => open(k - 255, k - 254),
        })
        .collect()
}

/// 128 groups of four points.
pub fn groups(tracks: usize, numbers: &mut Numbers) -> Vec<Given> {
    (0..tracks)
        .map(|k| {
            let base = k % 128 * 4;
            open(base + numbers.next(4), base + numbers.next(4))
        })
        .collect()
}

/// A plan with its points renamed.
pub fn renamed(plan: Vec<Given>, numbers: &mut Numbers) -> Vec<Given> {
    let mut names: Vec<usize> = (0..POINTS).collect();
    for k in (1..POINTS).rev() {
        names.swap(k, numbers.next(k + 1));
    }
    plan.iter().map(|one| Given { shut: one.shut, ..open(names[one.first as usize], names[one.second as usize]) }).collect()
}
