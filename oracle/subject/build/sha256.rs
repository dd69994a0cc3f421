//! SHA-256 (FIPS 180-4), since no registry is at hand.

/// The sum of some bytes, in lower-case hex.
pub fn hex(message: &[u8]) -> String {
    let mut state = roots(2, 8);
    let constants = roots(3, 64);
    for block in padded(message).chunks_exact(64) {
        compress(&mut state, &constants, block);
    }
    state.iter().map(|word| format!("{word:08x}")).collect()
}

/// A one bit, zeros, and the length in bits, up to a whole number of blocks.
fn padded(message: &[u8]) -> Vec<u8> {
    let mut bytes = message.to_vec();
    bytes.push(0x80);
    while bytes.len() % 64 != 56 {
        bytes.push(0);
    }
    bytes.extend((message.len() as u64 * 8).to_be_bytes());
    bytes
}

/// The first 32 bits of the fractional parts of the square or cube roots of the first primes.
fn roots(degree: u32, count: usize) -> Vec<u32> {
    let primes = (2u128..).filter(|n| (2..*n).take_while(|d| d * d <= *n).all(|d| n % d != 0));
    primes.take(count).map(|prime| root(prime << (32 * degree), degree) as u32).collect()
}

/// The whole part of a root, by halving.
fn root(of: u128, degree: u32) -> u128 {
    let (mut low, mut high) = (0u128, 1 << 40);
    while high - low > 1 {
        let middle = (low + high) / 2;
        if middle.pow(degree) <= of {
            low = middle;
        } else {
            high = middle;
        }
    }
    low
}

fn schedule(block: &[u8]) -> Vec<u32> {
    let mut words: Vec<u32> = block.chunks_exact(4).map(|four| u32::from_be_bytes(four.try_into().unwrap())).collect();
    for i in 16..64 {
        let (early, late) = (words[i - 15], words[i - 2]);
        let s0 = early.rotate_right(7) ^ early.rotate_right(18) ^ early >> 3;
        let s1 = late.rotate_right(17) ^ late.rotate_right(19) ^ late >> 10;
        words.push(words[i - 16].wrapping_add(s0).wrapping_add(words[i - 7]).wrapping_add(s1));
    }
    words
}

fn compress(state: &mut [u32], constants: &[u32], block: &[u8]) {
    let mut v: [u32; 8] = state.try_into().unwrap();
    for (word, constant) in schedule(block).iter().zip(constants) {
        let [a, b, c, d, e, f, g, h] = v;
        let s1 = e.rotate_right(6) ^ e.rotate_right(11) ^ e.rotate_right(25);
        let choice = e & f ^ !e & g;
        let first = [s1, choice, *constant, *word].iter().fold(h, |sum, part| sum.wrapping_add(*part));
        let s0 = a.rotate_right(2) ^ a.rotate_right(13) ^ a.rotate_right(22);
        let majority = a & b ^ a & c ^ b & c;
        v = [first.wrapping_add(s0).wrapping_add(majority), a, b, c, d.wrapping_add(first), e, f, g];
    }
    for (word, part) in state.iter_mut().zip(v) {
        *word = word.wrapping_add(part);
    }
}
