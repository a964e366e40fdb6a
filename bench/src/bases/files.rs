//! Basis files: the blocks of a run or of a history, written here once more, and damage to them.
use crate::engine::layout::*;
use crate::random::Random;

/// The file of any joined data, accepted or not.
pub fn file_of(joined: &[u8]) -> Vec<u8> {
    let mut file = Vec::with_capacity(joined.len().div_ceil(BLOCK_DATA) * BLOCK_LENGTH);
    for (number, data) in joined.chunks(BLOCK_DATA).enumerate() {
        let mut block = (number as u16).to_le_bytes().to_vec();
        block.extend_from_slice(data);
        block.resize(BLOCK_LENGTH - 4, 0);
        seal(&mut block);
        file.append(&mut block);
    }
    file
}

/// Puts the right check behind a block's 508 bytes.
fn seal(block: &mut Vec<u8>) {
    block.truncate(BLOCK_LENGTH - 4);
    let mut sum = 0u64;
    for (index, word) in block.chunks(4).enumerate() {
        let word = word.iter().rev().fold(0u64, |sum, &byte| sum << 8 | u64::from(byte));
        sum += word * (index as u64 + 1);
    }
    block.extend_from_slice(&((sum % (1 << 32)) as u32).to_le_bytes());
}

/// Damages a file in one of the ways that reading must find, or in one that it cannot.
pub fn damage(random: &mut Random, file: &mut Vec<u8>) {
    match random.below(7) {
        0 => {
            let place = random.below(file.len().max(1) as u64) as usize;
            if let Some(byte) = file.get_mut(place) {
                *byte ^= 1 << random.below(8);
            }
        }
        1 => resealed(random, file, |random, block| {
            let number = random.pick(&[0u16, 1, 8, 9, 10, 256, 65535]);
            block[..2].copy_from_slice(&number.to_le_bytes());
        }),
        2 => resealed(random, file, |random, block| {
            let place = random.below(block.len() as u64) as usize;
            block[place] = random.word() as u8;
        }),
        3 => swap_blocks(random, file),
        4 => {
            let length = random.pick(&[0, 1, 4096, 4554, 4607, 4608, 4609, 5060, 5119, 5120, 5121, 5632]);
            file.resize(length, 0);
        }
        5 => top_bit(random, file),
        _ => {
            for _ in 0..=random.below(3) {
                resealed(random, file, |random, block| block[0] = random.below(12) as u8);
            }
        }
    }
}

/// Where a block of the file begins, often one of the first two or of the last two.
fn any_block(random: &mut Random, file: &[u8]) -> usize {
    let blocks = (file.len() / BLOCK_LENGTH) as u64;
    let block = match random.below(6) {
        0 => random.below(blocks.min(2)),
        1 => blocks.saturating_sub(1 + random.below(2)),
        _ => random.below(blocks),
    };
    BLOCK_LENGTH * block as usize
}

/// Changes a block, and puts the right check behind it again.
pub fn resealed(random: &mut Random, file: &mut [u8], change: impl FnOnce(&mut Random, &mut [u8])) {
    let start = any_block(random, file);
    if let Some(place) = file.get_mut(start..start + BLOCK_LENGTH) {
        let mut block = place.to_vec();
        change(random, &mut block);
        seal(&mut block);
        place.copy_from_slice(&block);
    }
}

/// Puts two blocks into each other's places.
pub fn swap_blocks(random: &mut Random, file: &mut [u8]) {
    let (one, other) = (any_block(random, file), any_block(random, file));
    for byte in 0..BLOCK_LENGTH {
        file.swap(one + byte, other + byte);
    }
}

/// A word's top bit: in an even place the check cannot see it.
pub fn top_bit(random: &mut Random, file: &mut [u8]) {
    let block = any_block(random, file);
    let word = 4 * random.below(127) as usize;
    if let Some(byte) = file.get_mut(block + word + 3) {
        *byte ^= 0x80;
    }
}
