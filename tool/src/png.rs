//! A PNG writer for RGB pictures of 8 bits: rows filtered, one deflate block with the fixed codes.

/// The bytes of a PNG file; `rgb` holds three bytes a pixel, row by row.
pub fn png(width: usize, height: usize, rgb: &[u8]) -> Vec<u8> {
    assert_eq!(rgb.len(), 3 * width * height);
    let mut out = b"\x89PNG\r\n\x1a\n".to_vec();
    let mut head = Vec::new();
    head.extend((width as u32).to_be_bytes());
    head.extend((height as u32).to_be_bytes());
    head.extend([8, 2, 0, 0, 0]); // 8 bits, RGB, deflate, filters, not interlaced
    chunk(&mut out, b"IHDR", &head);
    chunk(&mut out, b"IDAT", &zlib(&filtered(width, rgb)));
    chunk(&mut out, b"IEND", &[]);
    out
}

fn chunk(out: &mut Vec<u8>, name: &[u8; 4], data: &[u8]) {
    out.extend((data.len() as u32).to_be_bytes());
    let start = out.len();
    out.extend(name);
    out.extend(data);
    let crc = crc32(&out[start..]);
    out.extend(crc.to_be_bytes());
}

fn crc32(bytes: &[u8]) -> u32 {
    let mut crc = u32::MAX;
    for &b in bytes {
        crc ^= u32::from(b);
        for _ in 0..8 {
            crc = if crc & 1 == 1 { crc >> 1 ^ 0xEDB8_8320 } else { crc >> 1 };
        }
    }
    !crc
}

fn adler32(bytes: &[u8]) -> u32 {
    let (mut a, mut b) = (1u32, 0u32);
    for &byte in bytes {
        a = (a + u32::from(byte)) % 65521;
        b = (b + a) % 65521;
    }
    b << 16 | a
}

/// Each row after the number of its filter: as it is, less the pixel to the left, or less the row above, whichever
/// leaves the smallest numbers.
fn filtered(width: usize, rgb: &[u8]) -> Vec<u8> {
    let len = 3 * width;
    let mut out = Vec::with_capacity(rgb.len() + rgb.len() / len.max(1));
    let mut above = vec![0; len];
    for row in rgb.chunks_exact(len) {
        let left = |i: usize| if i < 3 { 0 } else { row[i - 3] };
        let tries: [Vec<u8>; 3] = [
            row.to_vec(),
            (0..len).map(|i| row[i].wrapping_sub(left(i))).collect(),
            (0..len).map(|i| row[i].wrapping_sub(above[i])).collect(),
        ];
        let cost = |t: &[u8]| -> usize { t.iter().map(|&b| usize::from((b as i8).unsigned_abs())).sum() };
        let best = (0..3).min_by_key(|&k| cost(&tries[k])).unwrap_or(0);
        out.push(best as u8);
        out.extend(&tries[best]);
        above.copy_from_slice(row);
    }
    out
}

/// Bits go into bytes from the lowest one up.
struct Bits {
    out: Vec<u8>,
    word: u64,
    count: u32,
}

impl Bits {
    fn put(&mut self, value: u32, count: u32) {
        self.word |= u64::from(value) << self.count;
        self.count += count;
        while self.count >= 8 {
            self.out.push(self.word as u8);
            self.word >>= 8;
            self.count -= 8;
        }
    }

    /// A Huffman code goes highest bit first.
    fn code(&mut self, value: u32, count: u32) {
        self.put(value.reverse_bits() >> (32 - count), count);
    }

    /// A literal, the end mark (256) or a length (257 to 285).
    fn symbol(&mut self, s: u32) {
        match s {
            0..=143 => self.code(0x30 + s, 8),
            144..=255 => self.code(0x190 + s - 144, 9),
            256..=279 => self.code(s - 256, 7),
            _ => self.code(0xC0 + s - 280, 8),
        }
    }

    /// Copies `len` bytes from `distance` back.
    fn copy(&mut self, len: usize, distance: usize) {
        let (s, base, extra) = length_symbol(len);
        self.symbol(s);
        self.put((len - base) as u32, extra);
        let (s, base, extra) = distance_symbol(distance);
        self.code(s, 5);
        self.put((distance - base) as u32, extra);
    }
}

/// Symbol, first length of the symbol, bits that follow.
fn length_symbol(len: usize) -> (u32, usize, u32) {
    if len == 258 {
        return (285, 258, 0);
    }
    let (mut base, mut s) = (3, 257);
    loop {
        let extra = if s < 265 { 0 } else { (s - 261) / 4 };
        if len < base + (1 << extra) {
            return (s, base, extra);
        }
        base += 1 << extra;
        s += 1;
    }
}

fn distance_symbol(distance: usize) -> (u32, usize, u32) {
    let (mut base, mut s) = (1, 0);
    loop {
        let extra = if s < 4 { 0 } else { s / 2 - 1 };
        if distance < base + (1 << extra) {
            return (s, base, extra);
        }
        base += 1 << extra;
        s += 1;
    }
}

const WINDOW: usize = 32768;
const LONGEST: usize = 258;

/// One block with the fixed codes. A copy is looked for where the next three bytes were seen last.
fn zlib(data: &[u8]) -> Vec<u8> {
    let mut bits = Bits { out: vec![0x78, 0x01], word: 0, count: 0 };
    bits.put(0b011, 3); // the last block, fixed codes
    let mut seen = vec![usize::MAX; 1 << 15];
    let mut at = 0;
    while at < data.len() {
        let mut copied = 1;
        if let [a, b, c, ..] = data[at..] {
            let key = (usize::from(a) << 10 ^ usize::from(b) << 5 ^ usize::from(c)) & (seen.len() - 1);
            let from = std::mem::replace(&mut seen[key], at);
            if from != usize::MAX && at - from <= WINDOW {
                let same = data[from..].iter().zip(&data[at..]).take(LONGEST).take_while(|(x, y)| x == y).count();
                if same >= 3 {
                    bits.copy(same, at - from);
                    copied = same;
                }
            }
        }
        if copied == 1 {
            bits.symbol(u32::from(data[at]));
        }
        at += copied;
    }
    bits.symbol(256);
    bits.put(0, 7); // up to a byte
    let mut out = bits.out;
    out.extend(adler32(data).to_be_bytes());
    out
}

#[cfg(test)]
mod tests {
    use super::*;

    /// Reads back a block with the fixed codes.
    fn inflate(bytes: &[u8]) -> Vec<u8> {
        let mut at = 0;
        let mut bit = || {
            at += 1;
            u32::from(bytes[(at - 1) / 8] >> ((at - 1) % 8) & 1)
        };
        let mut low = |n: u32| (0..n).fold(0, |v, i| v | bit() << i);
        assert_eq!(low(3), 3);
        let mut out: Vec<u8> = Vec::new();
        loop {
            let mut high = |v: u32, n: u32| (0..n).fold(v, |v, _| v << 1 | low(1));
            let code = high(0, 7);
            let symbol = match code {
                0..=23 => 256 + code,
                24..=95 => high(code, 1) - 0x30,
                96..=99 => 280 + high(code, 1) - 0xC0,
                _ => 144 + high(code, 2) - 0x190,
            };
            if symbol < 256 {
                out.push(symbol as u8);
                continue;
            }
            if symbol == 256 {
                return out;
            }
            let (_, base, extra) = (3..=258).map(length_symbol).find(|l| l.0 == symbol).unwrap();
            let len = base + low(extra) as usize;
            let d = (0..5).fold(0, |v, _| v << 1 | low(1));
            let (_, base, extra) = (1..=WINDOW).map(distance_symbol).find(|x| x.0 == d).unwrap();
            let distance = base + low(extra) as usize;
            for _ in 0..len {
                out.push(out[out.len() - distance]);
            }
        }
    }

    #[test]
    fn what_is_packed_is_unpacked() {
        let mut random = crate::random::Random::new(1);
        for n in [0, 1, 2, 3, 4, 300, 5000, 70000] {
            for kinds in [1, 2, 7, 256] {
                let data: Vec<u8> = (0..n).map(|_| random.below(kinds) as u8).collect();
                let packed = zlib(&data);
                assert_eq!(packed[packed.len() - 4..], adler32(&data).to_be_bytes());
                assert!(inflate(&packed[2..]) == data, "{n} bytes of {kinds} kinds");
            }
        }
    }

    #[test]
    fn sums() {
        assert_eq!(crc32(b"123456789"), 0xCBF4_3926);
        assert_eq!(adler32(b"Wikipedia"), 0x11E6_0398);
    }

    #[test]
    fn lengths_and_distances() {
        assert_eq!([3, 10, 11, 12, 257, 258].map(|l| length_symbol(l).0), [257, 264, 265, 265, 284, 285]);
        assert_eq!([1, 4, 5, 6, 7, 32768].map(|d| distance_symbol(d).0), [0, 3, 4, 4, 5, 29]);
    }
}
