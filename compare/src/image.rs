//! The table image: put together from a table, and read byte by byte.

/// Document 01's nine tables, in its order.
pub const BANDS: usize = 0;
pub const SEGMENTS: usize = 1;
pub const CHANNELS: usize = 2;
pub const PRIVILEGES: usize = 3;
pub const AUTOMATIC: usize = 4;
pub const EXCLUDED: usize = 5;
pub const POWER: usize = 6;
pub const PLAN_DATA: usize = 7;
pub const PLAN_AVOID: usize = 8;

/// Flags of the general block.
pub const ELSEWHERE: u8 = 1;
pub const RESPONSE: u8 = 2;
pub const HAS_CHANNELS: u8 = 4;
pub const HAS_EMISSIONS: u8 = 8;
pub const HAS_PLAN: u8 = 16;

#[derive(Clone, Copy, Default, Debug)]
pub struct Record {
    pub low: f64,
    pub high: f64,
    pub figure: f64,
    pub band: u8,
    pub class: u8,
    pub emissions: u8,
    pub flags: u8,
    pub rule: u16,
    pub second: u16,
}

#[derive(Clone, Default, Debug)]
pub struct Table {
    pub data_limit: f64,
    pub elsewhere_limit: f64,
    pub width: f64,
    pub offset: f64,
    pub tolerance: f64,
    pub region: u8,
    pub reading: u8,
    pub flags: u8,
    pub channel_band: u8,
    pub sideband: u8,
    pub emissions: u8,
    /// data, elsewhere, automatic segments, channels, emissions, privileges
    pub rules: [u16; 6],
    /// Channel watts and segment watts, which edition 2 has; a table without them is of edition 1.
    pub watts: Option<(f64, f64)>,
    pub tables: [Vec<Record>; 9],
}

/// The 60 m power limits of edition 1: of a channel, and of the segment.
pub const FIXED_WATTS: (f64, f64) = (100.0, 9.15);

impl Table {
    /// The image's bytes, as it is: nothing is checked or put right.
    pub fn encode(&self) -> Vec<u8> {
        let mut out = Vec::new();
        for x in [self.data_limit, self.elsewhere_limit, self.width, self.offset, self.tolerance] {
            out.extend(x.to_bits().to_le_bytes());
        }
        out.extend([
            self.region,
            self.reading,
            self.flags,
            self.channel_band,
            self.sideband,
            self.emissions,
        ]);
        for rule in self.rules {
            out.extend(rule.to_le_bytes());
        }
        out.extend([0; 6]);
        if let Some((channel, segment)) = self.watts {
            for x in [channel, segment] {
                out.extend(x.to_bits().to_le_bytes());
            }
        }
        for r in self.tables.iter().flatten() {
            out.extend(r.encode());
        }
        let front = out.len() as u32;
        for t in &self.tables {
            out.extend((t.len() as u16).to_le_bytes());
        }
        out.extend(front.to_le_bytes());
        out.extend(self.edition().to_le_bytes());
        out.extend(b"EDGE");
        out
    }

    /// The table in words, a line for each record.
    pub fn text(&self) -> String {
        let names = [
            "band",
            "segment",
            "channel",
            "privilege",
            "automatic",
            "excluded",
            "power",
            "plan data",
            "plan avoid",
        ];
        let mut out = format!(
            "  general: limit {:?}, elsewhere {:?}, width {:?}, offset {:?}, tolerance {:?}, region {}, \
             reading {}, flags {:#07b}, channel band {}, sideband {}, emissions {:#06b}, rules {:?}, \
             watts {:?}\n",
            self.data_limit,
            self.elsewhere_limit,
            self.width,
            self.offset,
            self.tolerance,
            self.region,
            self.reading,
            self.flags,
            self.channel_band,
            self.sideband,
            self.emissions,
            self.rules,
            self.watts
        );
        for (name, records) in names.iter().zip(&self.tables) {
            for r in records {
                out += &format!(
                    "  {name}: {:?} to {:?}, figure {:?}, band {}, class {}, emissions {:#06b}, \
                     flags {:#04b}, rule {}, second {}\n",
                    r.low,
                    r.high,
                    r.figure,
                    r.band,
                    r.class,
                    r.emissions,
                    r.flags,
                    r.rule,
                    r.second
                );
            }
        }
        out
    }

    pub fn has(&self, flag: u8) -> bool {
        self.flags & flag != 0
    }

    pub fn edition(&self) -> u16 {
        if self.watts.is_some() { 2 } else { 1 }
    }

    /// The 60 m power limits that it is judged by, of a channel and of the segment.
    pub fn limits(&self) -> (f64, f64) {
        self.watts.unwrap_or(FIXED_WATTS)
    }
}

impl Record {
    pub fn encode(&self) -> [u8; 32] {
        let mut out = [0; 32];
        out[0..8].copy_from_slice(&self.low.to_bits().to_le_bytes());
        out[8..16].copy_from_slice(&self.high.to_bits().to_le_bytes());
        out[16..24].copy_from_slice(&self.figure.to_bits().to_le_bytes());
        out[24..28].copy_from_slice(&[self.band, self.class, self.emissions, self.flags]);
        out[28..30].copy_from_slice(&self.rule.to_le_bytes());
        out[30..32].copy_from_slice(&self.second.to_le_bytes());
        out
    }
}

pub fn u16_at(b: &[u8], at: usize) -> u16 {
    u16::from_le_bytes([b[at], b[at + 1]])
}

pub fn u32_at(b: &[u8], at: usize) -> u32 {
    u32::from_le_bytes(b[at..at + 4].try_into().unwrap())
}

pub fn f64_at(b: &[u8], at: usize) -> f64 {
    f64::from_bits(u64::from_le_bytes(b[at..at + 8].try_into().unwrap()))
}

/// The edition that an image names, where it is long enough for a trailer.
pub fn edition_of(image: &[u8]) -> Option<u16> {
    (image.len() >= 28).then(|| u16_at(image, image.len() - 6))
}

/// Where the tables of an image begin: "Edition 2 has two more f64 in the general block" (document 02).
pub fn front_of(image: &[u8]) -> usize {
    if edition_of(image) == Some(2) { 80 } else { 64 }
}

/// An image of edition 1 raised to edition 2: "channel watts at 64 and segment watts at 72, and the distance
/// back is 16 longer", "going up always fills in 100 and 9.15" (document 02).
pub fn raised(image: &[u8]) -> Vec<u8> {
    let mut out = image[..64].to_vec();
    out.extend(100f64.to_bits().to_le_bytes());
    out.extend(9.15f64.to_bits().to_le_bytes());
    out.extend(&image[64..]);
    let end = out.len() - 28;
    let far = u32_at(&out, end + 18) + 16;
    out[end + 18..end + 22].copy_from_slice(&far.to_le_bytes());
    out[end + 22..end + 24].copy_from_slice(&2u16.to_le_bytes());
    out
}

/// The table of an image that refusals 1 to 4 let pass.
pub fn decode(image: &[u8]) -> Table {
    let end = image.len() - 28;
    let mut table = Table {
        data_limit: f64_at(image, 0),
        elsewhere_limit: f64_at(image, 8),
        width: f64_at(image, 16),
        offset: f64_at(image, 24),
        tolerance: f64_at(image, 32),
        region: image[40],
        reading: image[41],
        flags: image[42],
        channel_band: image[43],
        sideband: image[44],
        emissions: image[45],
        rules: [46, 48, 50, 52, 54, 56].map(|at| u16_at(image, at)),
        watts: None,
        tables: Default::default(),
    };
    let mut at = front_of(image);
    if at == 80 {
        table.watts = Some((f64_at(image, 64), f64_at(image, 72)));
    }
    for t in 0..9 {
        for _ in 0..u16_at(image, end + 2 * t) {
            let r = &image[at..at + 32];
            table.tables[t].push(Record {
                low: f64_at(r, 0),
                high: f64_at(r, 8),
                figure: f64_at(r, 16),
                band: r[24],
                class: r[25],
                emissions: r[26],
                flags: r[27],
                rule: u16_at(r, 28),
                second: u16_at(r, 30),
            });
            at += 32;
        }
    }
    table
}
