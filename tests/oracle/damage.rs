//! Damaged copies of fonts.
use crate::fonts::word;
use crate::random::Random;

const LIMITS: [u32; 14] = [0, 1, 2, 3, 4, 63, 64, 65, 255, 65_535, 65_536, 0x7FFF_FFFF, 0x8000_0000, 0xFFFF_FFFF];

/// A copy with bytes changed, numbers of the directory or of a table's beginning at their limits, or an end cut off.
pub fn damaged(random: &mut Random, good: &[u8]) -> Vec<u8> {
    let mut made = good.to_vec();
    for _ in 0..1 + random.below(2) {
        let entries = usize::from(good[4]);
        match random.below(8) {
            7 => shorten(random, &mut made, entries),
            0 | 1 => {
                let at = random.below(made.len());
                made[at] = random.byte();
            }
            2 => {
                let at = random.below(made.len());
                made[at] ^= 1 << random.below(8);
            }
            3 => {
                let len = made.len() - random.below(made.len().min(40));
                made.truncate(len);
            }
            4 => {
                let at = 8 + 16 * random.below(entries) + 4 * random.below(4);
                put(random, &mut made, at, good)
            }
            _ => {
                let entry = 8 + 16 * random.below(entries);
                let offset = u32::from_le_bytes(good[entry + 12..entry + 16].try_into().unwrap()) as usize;
                let at = offset + 2 * random.below(8);
                put(random, &mut made, at, good)
            }
        }
    }
    made
}

/// a table's size made smaller, mostly of metrics or codes
fn shorten(random: &mut Random, made: &mut [u8], entries: usize) {
    let chosen = |made: &[u8], e: usize| matches!(made[8 + 16 * e], 4 | 32);
    let all: Vec<usize> = (0..entries).filter(|&e| 8 + 16 * e + 16 <= made.len()).collect();
    let some: Vec<usize> = all.iter().copied().filter(|&e| chosen(made, e)).collect();
    let from = if some.is_empty() || random.once_in(4) { all } else { some };
    if from.is_empty() {
        return;
    }
    let at = 8 + 16 * random.pick(&from) + 8;
    let size = u32::from_le_bytes(made[at..at + 4].try_into().unwrap());
    let less = random.pick(&[1, 2, 2, 3, 4, 6, 12, size.saturating_sub(14) / 2, size.saturating_sub(6)]);
    made[at..at + 4].copy_from_slice(&word(size.saturating_sub(less)));
}

/// a number at a limit, or next to the one that was there
fn put(random: &mut Random, made: &mut [u8], at: usize, good: &[u8]) {
    if at + 4 > made.len() {
        return;
    }
    let old = u32::from_le_bytes(good[at..at + 4].try_into().unwrap());
    let new = match random.below(3) {
        0 => random.pick(&LIMITS),
        1 => old.wrapping_add(random.pick(&[1, 2, 4, 12, u32::MAX, u32::MAX - 1, u32::MAX - 3])),
        _ => (good.len() as u32).wrapping_add(random.pick(&[0, 1, 2, u32::MAX])),
    };
    made[at..at + 4].copy_from_slice(&if random.once_in(4) { new.to_be_bytes() } else { new.to_le_bytes() });
}
