//! Plans of bases: a table that a model of the rules made, the order of the refusals, plans of every length with damage and noise against the rules written out
//! once more, and what is left in the lent bytes.
use common::random::Random;
use fuji_compressed::{Record, plan_bases};

// Not all of its functions are asked here.
#[allow(dead_code)]
#[path = "../src/ffi.rs"]
mod ffi;

const FILL: u8 = 0x5a;

/// A lossy Bayer header of 14 bits with so many lines.
fn header(lines: u16) -> [u8; 16] {
    let ([a, b], [c, d]) = ((6 * lines).to_be_bytes(), lines.to_be_bytes());
    [0x49, 0x53, 0, 0, 14, a, b, 3, 0, 3, 0, 3, 0, 1, c, d]
}

/// The call as C makes it, with filled bytes: the refusal, and the bytes.
fn asked(header: &[u8], plan: &[u8], room: usize) -> ([usize; 4], Vec<u8>) {
    let (mut bases, mut refusal) = (vec![FILL; room], [9; 4]);
    let lent = bases.as_mut_ptr();
    unsafe { ffi::fuji_plan_bases(header.as_ptr(), header.len(), plan.as_ptr(), plan.len(), lent, room, &mut refusal) };
    (refusal, bases)
}

fn refused(plan: &str, want: [usize; 4]) {
    assert_eq!(asked(&header(10), plan.as_bytes(), 10), (want, vec![FILL; 10]), "{plan:?}");
}

fn accepted(plan: &str, want: [u8; 10]) {
    assert_eq!(asked(&header(10), plan.as_bytes(), 10), ([0; 4], want.to_vec()), "{plan:?}");
}

#[test]
fn accepted_plans() {
    accepted("0\t9\t5\n", [5; 10]);
    accepted("5\t9\t200\n0\t4\t3\n", [3, 3, 3, 3, 3, 200, 200, 200, 200, 200]);
    accepted("00000\t00009\t00255\n", [255; 10]);
    let order = [9, 3, 1, 0, 2, 4, 8, 7, 6, 5];
    let each: String = order.iter().map(|n| format!("{n}\t{n}\t{}\n", 25 * n)).collect();
    accepted(&each, [0, 25, 50, 75, 100, 125, 150, 175, 200, 225]);
}

#[test]
fn records_that_are_not_good() {
    refused("\n", [18, 0, 0, 1]);
    refused("0\t9\t5\n\n", [18, 0, 0, 2]);
    refused("0\t9\t5", [18, 0, 0, 1]);
    refused("0\t4\t5\n5\t9\t5", [18, 0, 0, 2]);
    let first = [
        "0\t9\t5\r\n",
        "0 9 5\n",
        "0\t\t9\t5\n",
        "0\t9\t5\t\n",
        "\t0\t9\t5\n",
        " 0\t9\t5\n",
        "0\t9\t5\t1\n",
        "0\t9\n",
        "000000\t9\t5\n",
        "0\t9\t000005\n",
        "0\t+9\t5\n",
        "0\t9\t-5\n",
        "0\t9\t256\n",
        "0\t9\t65541\n",
        "9\t0\t5\n",
        "0\t10\t5\n",
        "65536\t65545\t5\n",
        "\u{feff}0\t9\t5\n",
        "# a comment\n0\t9\t5\n",
        "0\t9\t5\0\n",
        "0\t9\t99999\n",
        "0\t9\t",
        "0\t9\t\n",
        "0\t",
        "0",
        "\t\t\n",
        "0\n9\n5\n",
        "0\t9\t/\n",
        "0\t9\t:\n",
    ];
    for plan in first {
        refused(plan, [18, 0, 0, 1]);
    }
    refused("0\t9\t5\n0\t9\t5\n0\t9\t256\n", [18, 0, 0, 3]);
    refused("0\t3\t5\n4\tx\t5\n", [18, 0, 0, 2]);
    // A record that is not good comes before lines that are held twice or by none, wherever it stands.
    let many: String = "3\t3\t1\n".repeat(400) + "3\t2\t1\n" + "bad\n";
    refused(&many, [18, 0, 0, 401]);
}

#[test]
fn lines_held_twice_or_by_none() {
    refused("", [20, 0, 0, 0]);
    refused("0\t3\t5\n3\t4\t6\n", [19, 0, 3, 0]);
    refused("6\t9\t1\n0\t5\t2\n5\t7\t3\n", [19, 0, 5, 0]);
    refused("0\t5\t7\n5\t9\t7\n", [19, 0, 5, 0]);
    refused("0\t3\t1\n5\t9\t1\n", [20, 0, 4, 0]);
    refused("1\t9\t1\n", [20, 0, 0, 0]);
    refused("0\t8\t1\n", [20, 0, 9, 0]);
    // The lowest line, not the first that is met; and any line held twice comes before all that none holds.
    refused("8\t9\t1\n9\t9\t1\n2\t3\t1\n2\t2\t1\n", [19, 0, 2, 0]);
    refused("9\t9\t1\n9\t9\t1\n", [19, 0, 9, 0]);
}

#[test]
fn header_and_bytes_come_before_the_plan() {
    let mut lossless = header(10);
    lossless[2] = 1;
    let mut broken = header(10);
    broken[4] = 13;
    let fifteen = &header(10)[..15];
    for plan in [&b"x"[..], b"", b"0\t9\t5\n"] {
        for room in [0, 9, 11, 4000] {
            assert_eq!(asked(&header(10), plan, room), ([17, 0, 0, 0], vec![FILL; room]));
        }
        for room in [9, 10] {
            assert_eq!(asked(&lossless, plan, room), ([16, 0, 0, 0], vec![FILL; room]));
            assert_eq!(asked(fifteen, plan, room), ([1, 0, 0, 0], vec![FILL; room]));
            assert_eq!(asked(&broken, plan, room), ([2, 0, 0, 0], vec![FILL; room]));
        }
    }
    // More than 16 bytes of header do not matter.
    let long = [&header(10)[..], b"and more"].concat();
    assert_eq!(asked(&long, b"0\t9\t5\n", 10), ([0; 4], vec![5; 10]));
}

#[test]
fn as_many_lines_as_a_header_can_have() {
    assert_eq!(asked(&header(2731), b"0\t2730\t1\n", 2731), ([0; 4], vec![1; 2731]));
    assert_eq!(asked(&header(2731), b"0\t2731\t1\n", 2731), ([18, 0, 0, 1], vec![FILL; 2731]));
    let each: String = (0..2731).rev().map(|n| format!("{n}\t{n}\t{}\n", n % 256)).collect();
    let want: Vec<u8> = (0..2731).map(|n| (n % 256) as u8).collect();
    assert_eq!(asked(&header(2731), each.as_bytes(), 2731), ([0; 4], want));
    assert_eq!(asked(&header(1), b"0\t0\t9\n", 1), ([0; 4], vec![9]));
}

#[test]
fn refusals_in_words() {
    let said = |plan: &[u8]| plan_bases(&header(10), plan, &mut [0; 10]).unwrap_err().to_string();
    let bad = "the plan's record is malformed, runs backwards, passes the last line or has a base above 255";
    assert_eq!(said(b"0\t9\t5\nx\n"), format!("refusal 18: record 2: {bad}"));
    assert_eq!(said(b"0\t9\t5\n7\t7\t5\n"), "refusal 19: line 7: two records of the plan hold it");
    assert_eq!(said(b"0\t7\t5\n"), "refusal 20: line 8: no record of the plan holds it");
    let short = plan_bases(&header(10), b"", &mut [0; 9]).unwrap_err().to_string();
    assert_eq!(short, "refusal 17: the number of base bytes is not that of the lines");
    let mut lossless = header(10);
    lossless[2] = 1;
    assert_eq!(plan_bases(&lossless, b"", &mut [0; 10]).unwrap_err().to_string(), "refusal 16: the header is lossless");
}

// ---- the rules once more, on strings

fn fields(line: &str) -> Option<[usize; 3]> {
    let read = |f: &str| (1..=5).contains(&f.len()) && f.bytes().all(|b| b.is_ascii_digit());
    let all: Vec<&str> = line.split('\t').collect();
    if !all.iter().all(|f| read(f)) {
        return None;
    }
    all.iter().map(|f| f.parse().unwrap()).collect::<Vec<usize>>().try_into().ok()
}

fn rules(plan: &[u8], lines: usize) -> Result<Vec<u8>, [usize; 4]> {
    let mut held: Vec<Vec<u8>> = vec![vec![]; lines];
    for (i, line) in plan.split_inclusive(|b| *b == b'\n').enumerate() {
        let bad = [18, 0, 0, i + 1];
        let text = std::str::from_utf8(line).map_err(|_| bad)?.strip_suffix('\n').ok_or(bad)?;
        let [first, last, base] = fields(text).filter(|[a, b, q]| a <= b && *b < lines && *q <= 255).ok_or(bad)?;
        held[first..=last].iter_mut().for_each(|h| h.push(base as u8));
    }
    let lowest = |test: fn(usize) -> bool| held.iter().position(|h| test(h.len()));
    if let Some(n) = lowest(|count| count > 1) {
        return Err([19, 0, n, 0]);
    }
    if let Some(n) = lowest(|count| count == 0) {
        return Err([20, 0, n, 0]);
    }
    Ok(held.into_iter().map(|h| h[0]).collect())
}

fn below(random: &mut Random, n: usize) -> usize {
    random.below(n as u64) as usize
}

/// A plan that is in order: the lines are cut at some places, and the records shuffled.
fn in_order(random: &mut Random, lines: usize) -> Vec<u8> {
    let mut records = vec![];
    let mut first = 0;
    while first < lines {
        let last = first + below(random, lines - first);
        let zeros = ["", "0", "00"][below(random, 3)];
        records.push(format!("{zeros}{first}\t{last}\t{zeros}{}\n", below(random, 256)));
        first = last + 1;
    }
    for i in (1..records.len()).rev() {
        records.swap(i, below(random, i + 1));
    }
    records.concat().into_bytes()
}

#[test]
fn damaged_plans_and_noise() {
    let mut random = Random::new(2026);
    let mut seen = [0; 21];
    for round in 0..20_000 {
        let lines = 1 + below(&mut random, 30);
        let mut plan = if round % 10 == 0 { vec![] } else { in_order(&mut random, lines) };
        for _ in 0..below(&mut random, 3) {
            let at = below(&mut random, plan.len() + 1);
            match below(&mut random, 4) {
                0 => plan.insert(at, b"0123456789\t\n "[below(&mut random, 13)]),
                1 if at < plan.len() => drop(plan.remove(at)),
                2 if at < plan.len() => plan[at] = b"0123456789\t\nx"[below(&mut random, 13)],
                _ => plan.extend(in_order(&mut random, 1 + lines / 2)),
            }
        }
        let want = rules(&plan, lines);
        let (refusal, bases) = asked(&header(lines as u16), &plan, lines);
        seen[refusal[0]] += 1;
        match want {
            Ok(bytes) => assert_eq!((refusal, bases), ([0; 4], bytes), "{plan:?}"),
            Err(words) => assert_eq!((refusal, bases), (words, vec![FILL; lines]), "{plan:?}"),
        }
    }
    assert!(seen[0] > 1000 && seen[18] > 1000 && seen[19] > 1000 && seen[20] > 100, "{seen:?}");
}

/// Some megabytes: noise is refused at once, and a good plan that holds every line again and again takes no longer than its text.
#[test]
fn long_plans() {
    let mut random = Random::new(7);
    let noise: Vec<u8> = (0..4_000_000).map(|_| below(&mut random, 256) as u8).collect();
    assert_eq!(asked(&header(2731), &noise, 2731).0[0], 18);
    let again = b"0\t2730\t255\n".repeat(400_000);
    let start = std::time::Instant::now();
    assert_eq!(asked(&header(2731), &again, 2731), ([19, 0, 0, 0], vec![FILL; 2731]));
    assert!(start.elapsed().as_secs() < 5, "{:?}", start.elapsed());
    let last_bad = [&again[..], b"0\t2731\t0\n"].concat();
    assert_eq!(asked(&header(2731), &last_bad, 2731), ([18, 0, 0, 400_001], vec![FILL; 2731]));
}
