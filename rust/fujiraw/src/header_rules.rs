//! Which rule a header breaks, in words. Whether it breaks one is the library's to say; this only finds the field for
//! the message.

/// The first field that breaks a rule: what it is called, what it has, and what it may have.
pub fn broken(bytes: &[u8]) -> Option<String> {
    let h: &[u8; 16] = bytes.first_chunk()?;
    let two = |i: usize| u16::from_be_bytes([h[i], h[i + 1]]) as u32;
    let (height, rounded, width, size, lines) = (two(5), two(7), two(9), two(11), two(14));
    let blocks = h[13] as u32;
    let wrong = |at: &str, what: &str, has: u32, may: &str| Some(format!("{what} ({at}) is {has}, and must be {may}"));
    match () {
        _ if two(0) != 0x4953 => Some(format!("not a stream: it begins with {:02X} {:02X}, and streams begin with 49 53", h[0], h[1])),
        _ if h[2] > 1 => wrong("byte 2", "the lossless flag", h[2] as u32, "0 or 1"),
        _ if h[3] != 0 && h[3] != 16 => wrong("byte 3", "the raw type", h[3] as u32, "0 (Bayer) or 16 (X-Trans)"),
        _ if ![12, 14, 16].contains(&h[4]) => wrong("byte 4", "the bits a sample", h[4] as u32, "12, 14 or 16"),
        _ if !(6..=0x4002).contains(&height) || !height.is_multiple_of(6) => {
            wrong("bytes 5 to 6", "the height", height, "a multiple of 6, from 6 to 16386")
        }
        _ if !(0x300..=0x4200).contains(&rounded) || !rounded.is_multiple_of(768) => {
            wrong("bytes 7 to 8", "the rounded width", rounded, "a multiple of 768, from 768 to 16896")
        }
        _ if !(0x300..=0x4200).contains(&width) || !width.is_multiple_of(24) => {
            wrong("bytes 9 to 10", "the width", width, "a multiple of 24, from 768 to 16896")
        }
        _ if width > rounded || rounded - width > 767 => {
            wrong("bytes 9 to 10", "the width", width, &format!("at most the rounded width, {rounded}, and at most 767 less"))
        }
        _ if size != 0x300 => wrong("bytes 11 to 12", "the block size", size, "768"),
        _ if !(1..=16).contains(&blocks) || blocks != rounded / 768 => {
            wrong("byte 13", "the number of blocks", blocks, &format!("the rounded width by 768, {}, and at most 16", rounded / 768))
        }
        _ if !(1..=0xAAB).contains(&lines) || lines != height / 6 => {
            wrong("bytes 14 to 15", "the number of lines", lines, &format!("the height by 6, {}", height / 6))
        }
        _ => None,
    }
}
