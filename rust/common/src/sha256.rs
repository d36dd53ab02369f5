//! SHA-256 (FIPS 180-4), for expected values that are known by their digest.

/// The first 32 bits of the fractions of the roots of the first primes: `power` 2 for square roots, 3 for cube roots.
fn fractions(count: usize, power: u32) -> Vec<u32> {
    let primes = (2u128..).filter(|n| (2..*n).take_while(|d| d * d <= *n).all(|d| n % d != 0));
    primes.take(count).map(|p| root(p << (32 * power), power) as u32).collect()
}

/// The largest number whose power is at most n.
fn root(n: u128, power: u32) -> u128 {
    (0..40).rev().fold(0, |r, bit| if (r | 1u128 << bit).pow(power) <= n { r | 1 << bit } else { r })
}

pub fn sha256(bytes: &[u8]) -> [u8; 32] {
    let k = fractions(64, 3);
    let mut hash = fractions(8, 2);
    let mut all = bytes.to_vec();
    all.push(0x80);
    all.resize((all.len() + 8).next_multiple_of(64) - 8, 0);
    all.extend((8 * bytes.len() as u64).to_be_bytes());
    for block in all.as_chunks::<64>().0 {
        let mut w: Vec<u32> = block.as_chunks::<4>().0.iter().map(|b| u32::from_be_bytes(*b)).collect();
        for i in 16..64 {
            let (a, b) = (w[i - 15], w[i - 2]);
            let small = a.rotate_right(7) ^ a.rotate_right(18) ^ a >> 3;
            let large = b.rotate_right(17) ^ b.rotate_right(19) ^ b >> 10;
            w.push(w[i - 16].wrapping_add(small).wrapping_add(w[i - 7]).wrapping_add(large));
        }
        let mut s = hash.clone();
        for i in 0..64 {
            let choice = s[4] & s[5] ^ !s[4] & s[6];
            let turned = s[4].rotate_right(6) ^ s[4].rotate_right(11) ^ s[4].rotate_right(25);
            let first = s[7].wrapping_add(turned).wrapping_add(choice).wrapping_add(k[i]).wrapping_add(w[i]);
            let most = s[0] & s[1] ^ s[0] & s[2] ^ s[1] & s[2];
            let second = (s[0].rotate_right(2) ^ s[0].rotate_right(13) ^ s[0].rotate_right(22)).wrapping_add(most);
            s.rotate_right(1);
            s[4] = s[4].wrapping_add(first);
            s[0] = first.wrapping_add(second);
        }
        hash.iter_mut().zip(s).for_each(|(h, v)| *h = h.wrapping_add(v));
    }
    let digest: Vec<u8> = hash.iter().flat_map(|h| h.to_be_bytes()).collect();
    digest.try_into().unwrap()
}

/// The digest's first digits, as they are written down.
pub fn digits(bytes: &[u8], count: usize) -> String {
    let all: String = sha256(bytes).iter().map(|b| format!("{b:02x}")).collect();
    all[..count].to_string()
}

#[test]
fn digests_of_the_standard() {
    assert_eq!(digits(b"", 64), "e3b0c44298fc1c149afbf4c8996fb92427ae41e4649b934ca495991b7852b855");
    assert_eq!(digits(b"abc", 64), "ba7816bf8f01cfea414140de5dae2223b00361a396177a9cb410ff61f20015ad");
    let two = b"abcdbcdecdefdefgefghfghighijhijkijkljklmklmnlmnomnopnopq";
    assert_eq!(digits(two, 64), "248d6a61d20638b8e5c026930c3e6039a33ce45964ff2167f6ecedd419db06c1");
}
