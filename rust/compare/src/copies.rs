//! Whole streams that the port makes, decoded by the original: a tight stream gives the picture of the stream that it was made of, and a working copy comes as near to it as its bases say.
use crate::making;
use crate::sides::{Answer, Wanted, decode_theirs};
use common::random::Random;
use common::stream::Header;
use fuji_compressed::{ColorTile, FujiCompressed, lossy_copy, lossy_copy_parallel, tighten, tighten_parallel};

/// What is counted.
#[derive(Default)]
pub struct Tally {
    pub made: u64,
    pub refused: u64,
    pub not_opened: u64,
}

/// The whole picture as the original decodes it.
fn picture(bytes: &[u8], header: &Header, tile: &ColorTile) -> Answer<Vec<u16>> {
    let (width, height) = (header.width as u32, header.height as u32);
    let mut image = vec![0; width as usize * height as usize];
    match decode_theirs(bytes, Wanted::Whole(width, height), tile, &mut image) {
        Answer::Given(()) => Answer::Given(image),
        Answer::Refused(number) => Answer::Refused(number),
        Answer::Panicked => Answer::Panicked,
    }
}

/// One stream, whole or damaged.
fn one(random: &mut Random, tally: &mut Tally) -> Result<(), String> {
    let (header, whole) = making::whole(random);
    let bytes = if random.chance(2) { whole } else { making::damaged(random, &header, &whole) };
    let Ok(opened) = FujiCompressed::new(&bytes) else {
        tally.not_opened += 1;
        return Ok(());
    };
    let tile = making::tile(random);
    let before = picture(&bytes, &Header::of(&bytes).unwrap(), &tile);
    let mut out = vec![0x5a; opened.header.tightened_bound()];
    match (tighten(&bytes, &mut out), before) {
        (Ok(length), Answer::Given(image)) => {
            tally.made += 1;
            tight(&bytes, &out[..length], &tile, &image)?;
            lossy(&bytes, &opened, &tile, &image, random)
        }
        (Err(refusal), Answer::Refused(14)) if refusal.number == 14 => {
            tally.refused += 1;
            // It does not open.
            if FujiCompressed::new(&out).is_ok() || out[..16] != [0; 16] {
                return Err("what was refused on the way opens".to_string());
            }
            let parallel = tighten_parallel(2, &bytes, &|| ());
            if parallel != Err(refusal) { Err(format!("{refusal}, but by threads {:?}", parallel.map(|b| b.len()))) } else { Ok(()) }
        }
        (ours, theirs) => {
            let decoded = matches!(theirs, Answer::Given(_));
            Err(format!("tighten answers {ours:?}, and the original decodes the stream: {decoded}"))
        }
    }
}

fn tight(bytes: &[u8], made: &[u8], tile: &ColorTile, image: &[u16]) -> Result<(), String> {
    let header = Header::of(made).ok_or("a tight stream is shorter than its header")?;
    match picture(made, &header, tile) {
        Answer::Given(after) if after == image => {}
        _ => return Err("the original decodes the tight stream to another picture".to_string()),
    }
    let opened = FujiCompressed::new(made).map_err(|e| e.to_string())?;
    if let Some(b) = (0..opened.header.blocks as usize).find(|b| opened.read_tight(*b).answer.is_err()) {
        return Err(format!("block {b} of the tight stream is not tight"));
    }
    let mut again = vec![0; made.len()];
    if tighten(made, &mut again) != Ok(made.len()) || again != made {
        return Err("tightened again it is another stream".to_string());
    }
    match tighten_parallel(2, bytes, &|| ()) {
        Ok(parallel) if parallel == made => Ok(()),
        _ => Err("two threads make another tight stream".to_string()),
    }
}

/// Each sample is within the base of its line and block. X-Trans interpolates some, which follow from their neighbours: there only bases of 0 are looked at.
fn lossy(bytes: &[u8], opened: &FujiCompressed, tile: &ColorTile, image: &[u16], random: &mut Random) -> Result<(), String> {
    let (blocks, lines, width) = (opened.header.blocks as usize, opened.header.lines as usize, opened.header.width as usize);
    let most = random.pick(&[1, 4, 12, 256]);
    let bases: Vec<u8> = (0..blocks * lines).map(|_| random.below(most) as u8).collect();
    let mut out = vec![0x5a; opened.header.lossy_copy_bound()];
    let length = lossy_copy(bytes, &bases, &mut out).map_err(|e| e.to_string())?;
    let made = &out[..length];
    if lossy_copy_parallel(2, bytes, &bases, &|| ()).as_deref() != Ok(made) {
        return Err("two threads make another working copy".to_string());
    }
    let Answer::Given(after) = picture(made, &Header::of(made).unwrap(), tile) else {
        return Err("the original does not decode the working copy".to_string());
    };
    let base = |i: usize| bases[i % width / 768 * lines + i / width / 6] as u16;
    let off = |i: &usize| image[*i].abs_diff(after[*i]) > base(*i);
    match (0..image.len()).find(off) {
        Some(i) if most == 1 || !opened.header.xtrans => Err(format!("sample {i} of a working copy is off by more than its base")),
        _ => Ok(()),
    }
}

pub fn run(count: u64, seed: u64) -> Result<Tally, String> {
    let (mut random, mut tally) = (Random::new(seed), Tally::default());
    (0..count).try_for_each(|_| one(&mut random, &mut tally))?;
    Ok(tally)
}
