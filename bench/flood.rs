//! What Priority-Flood (Barnes, Lehman and Mulla 2014) finds on a tile. The queue has one bucket for each whole metre.

pub const VOID: i16 = -32768;

/// The steps to the neighbours, down and right, in the order of the direction codes 1, 2, 4 .. 128.
pub const STEPS: [(i64, i64); 8] = [
    (0, 1),
    (1, 1),
    (1, 0),
    (1, -1),
    (0, -1),
    (-1, -1),
    (-1, 0),
    (-1, 1),
];

/// The neighbours of a cell, as the number of the direction and the neighbour's index; none outside.
pub fn neighbors(side: usize, index: usize) -> impl Iterator<Item = (usize, usize)> {
    let row = (index / side) as i64;
    let col = (index % side) as i64;
    let inside = 0..side as i64;
    STEPS
        .iter()
        .enumerate()
        .filter_map(move |(direction, &(down, right))| {
            let (r, c) = (row + down, col + right);
            (inside.contains(&r) && inside.contains(&c))
                .then(|| (direction, r as usize * side + c as usize))
        })
}

/// What Priority-Flood finds: conditioned elevations, codes of spill parents, and the order of visits.
pub struct Flood {
    pub con: Vec<i16>,
    pub spl: Vec<u8>,
    pub rnk: Vec<u32>,
}

/// Floods the terrain from its open cells, the lowest first and the first found among the lowest.
pub fn flood(heights: &[i16], side: usize) -> Flood {
    let mut found = Flood {
        con: heights.to_vec(),
        spl: vec![0; heights.len()],
        rnk: vec![0; heights.len()],
    };
    let mut seen: Vec<bool> = heights.iter().map(|&height| height == VOID).collect();
    let mut buckets: Vec<Vec<u32>> = vec![Vec::new(); 65536];
    let bucket_of = |height: i16| (i32::from(height) + 32768) as usize;
    for (index, &height) in heights.iter().enumerate() {
        let around = || neighbors(side, index);
        if height != VOID && (around().count() < 8 || around().any(|(_, n)| heights[n] == VOID)) {
            seen[index] = true;
            buckets[bucket_of(height)].push(index as u32);
        }
    }
    let mut visits = 0;
    for level in 0..buckets.len() {
        let mut bucket = std::mem::take(&mut buckets[level]);
        let mut next = 0;
        while next < bucket.len() {
            let index = bucket[next] as usize;
            next += 1;
            found.rnk[index] = visits;
            visits += 1;
            for (direction, neighbor) in neighbors(side, index) {
                if seen[neighbor] {
                    continue;
                }
                seen[neighbor] = true;
                let con = heights[neighbor].max(found.con[index]);
                found.con[neighbor] = con;
                found.spl[neighbor] = 1 << ((direction + 4) % 8);
                if bucket_of(con) == level {
                    bucket.push(neighbor as u32);
                } else {
                    buckets[bucket_of(con)].push(neighbor as u32);
                }
            }
        }
    }
    found
}
