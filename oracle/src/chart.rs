//! Charts: their bytes checked, read and written.

use crate::cost::Cost;

/// One station.
#[derive(Clone, Copy, Debug, PartialEq, Eq)]
pub struct Station {
    /// The number of its first road.
    pub first: u32,
    /// The trims and milliseconds of its guess.
    pub guess: (u32, u32),
    /// Its zone, and 256 more if it is a goal.
    pub marks: u32,
}

/// One road.
#[derive(Clone, Copy, Debug, PartialEq, Eq)]
pub struct Road {
    /// The station that it leads to.
    pub target: u32,
    /// Its trims and milliseconds.
    pub cost: (u32, u32),
}

/// A chart that keeps all rules.
#[derive(Clone, Debug, PartialEq, Eq)]
pub struct Chart {
    pub stations: Vec<Station>,
    pub roads: Vec<Road>,
}

fn word(bytes: &[u8], at: usize) -> u32 {
    u32::from_le_bytes(bytes[at..at + 4].try_into().unwrap())
}

impl Chart {
    /// Reads a chart, or answers the number of its refusal: 5 for the header or length, 6 for a
    /// station or road.
    pub fn read(bytes: &[u8]) -> Result<Chart, u8> {
        if bytes.len() < 16 {
            return Err(5);
        }
        let (n, m) = (word(bytes, 0) as usize, word(bytes, 4) as usize);
        if !(1..=1024).contains(&n)
            || m > 4000
            || word(bytes, 8) != 16
            || word(bytes, 12) as usize != 16 + 16 * n
            || bytes.len() != 16 + 16 * n + 12 * m
        {
            return Err(5);
        }
        let stations: Vec<Station> = (0..n)
            .map(|i| 16 + 16 * i)
            .map(|at| Station {
                first: word(bytes, at),
                guess: (word(bytes, at + 4), word(bytes, at + 8)),
                marks: word(bytes, at + 12),
            })
            .collect();
        let roads: Vec<Road> = (0..m)
            .map(|i| 16 + 16 * n + 12 * i)
            .map(|at| Road {
                target: word(bytes, at),
                cost: (word(bytes, at + 4), word(bytes, at + 8)),
            })
            .collect();
        let mut before = 0;
        for (i, station) in stations.iter().enumerate() {
            let first = station.first as usize;
            if (i == 0 && first != 0) || first < before || first > m || station.marks & !0x13f != 0
            {
                return Err(6);
            }
            before = first;
        }
        if roads.iter().any(|road| road.target as usize >= n) {
            return Err(6);
        }
        Ok(Chart { stations, roads })
    }

    /// The bytes of the chart.
    pub fn write(&self) -> Vec<u8> {
        let n = self.stations.len() as u32;
        let mut words = vec![n, self.roads.len() as u32, 16, 16 + 16 * n];
        for s in &self.stations {
            words.extend([s.first, s.guess.0, s.guess.1, s.marks]);
        }
        for r in &self.roads {
            words.extend([r.target, r.cost.0, r.cost.1]);
        }
        words.iter().flat_map(|w| w.to_le_bytes()).collect()
    }

    /// The roads of a station, by rank.
    pub fn roads(&self, station: u32) -> &[Road] {
        let at = station as usize;
        let first = self.stations[at].first as usize;
        let end = match self.stations.get(at + 1) {
            Some(next) => next.first as usize,
            None => self.roads.len(),
        };
        &self.roads[first..end]
    }

    /// The guess of a station.
    pub fn guess(&self, station: u32) -> Cost {
        let (trims, millis) = self.stations[station as usize].guess;
        Cost::new(trims, millis)
    }

    /// Whether a station is a goal.
    pub fn goal(&self, station: u32) -> bool {
        self.stations[station as usize].marks & 256 != 0
    }
}

/// Bytes as hexadecimal digits.
pub fn to_hex(bytes: &[u8]) -> String {
    bytes.iter().map(|b| format!("{b:02x}")).collect()
}

/// Bytes from hexadecimal digits.
pub fn from_hex(text: &str) -> Option<Vec<u8>> {
    let text = text.trim();
    if text.len() % 2 != 0 || !text.is_ascii() {
        return None;
    }
    (0..text.len() / 2)
        .map(|i| u8::from_str_radix(&text[2 * i..2 * i + 2], 16).ok())
        .collect()
}
