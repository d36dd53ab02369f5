//! States that are stored and gone on from, as a user does it.
mod folder;

use common::stream::{Header, encoded};
use folder::{Folder, stream};

/// Two blocks, the second narrower, of four lines.
fn wide() -> Vec<u8> {
    encoded(&Header::new(true, true, 14, 960, 4), &[], &mut |b, n, line, p| (1000 * b + 200 * n + 40 * line + p % 7) as u16)
}

#[test]
fn the_foot_is_what_decoding_from_the_top_gives() {
    let f = Folder::new("foot");
    f.put("a.fcs", &wide());
    assert_eq!(f.works("save -f a.fcs all 1 states"), "");
    assert_eq!(f.get("states").len(), 2 * 7851);
    f.works("decode -f a.fcs top.pgm --region 700,13,260,11 --quiet");
    f.works("decode -f a.fcs foot.pgm --region 700,13,260,11 --from states --quiet");
    assert!(f.get("foot.pgm") == f.get("top.pgm"));
    // One block's state is enough for a region within its columns.
    f.works("save -f a.fcs 1 2 state");
    assert_eq!(f.get("state").len(), 7851);
    f.works("decode -f a.fcs top.raw --region 768,18,192,6 --format raw --quiet");
    f.works("decode -f a.fcs foot.raw --region 768,18,192,6 --format raw --from=state --quiet");
    assert!(f.get("foot.raw") == f.get("top.raw"));
    // Nothing is left to read after the last line, and the region would lie below the picture.
    f.works("save -f a.fcs all 3 end");
    f.fails(
        "decode a.fcs out --region 0,23,768,1 --from end",
        "the state of block 0 goes on from row 24, and the region begins with row 23",
    );
}

#[test]
fn what_cannot_be_gone_on_from() {
    let f = Folder::new("states");
    f.put("a.fcs", &wide());
    f.put("b.fcs", &stream());
    f.works("save -f a.fcs 0 1 state");
    f.works("save -f b.fcs 0 0 other");
    let state = f.get("state");
    f.put("short", &state[..7850]);
    f.put("empty", b"");
    let mut large = state.clone();
    large[1707] = 0x40;
    f.put("large", &large);
    let mut header = state;
    header[15] += 1;
    f.put("header", &header);
    let malformed = "refusal 21: the line to store after is not there, or the stored state is malformed";
    f.fails("decode a.fcs out --region 0,12,768,12 --from short", malformed);
    f.fails("decode a.fcs out --region 0,12,768,12 --from empty", malformed);
    f.fails("decode a.fcs out --region 0,12,768,12 --from large", malformed);
    f.fails("decode a.fcs out --region 0,12,768,12 --from other", malformed);
    f.fails("decode a.fcs out --region 0,12,768,12 --from header", "refusal 22: the stored state is of another header or block");
    f.fails("decode a.fcs out --region 0,12,769,12 --from state", "state has no state of block 1");
    f.fails(
        "decode a.fcs out --region 0,11,768,12 --from state",
        "the state of block 0 goes on from row 12, and the region begins with row 11",
    );
    f.fails("decode a.fcs out --from state", "the state of block 0 goes on from row 12, and the region begins with row 0");
    f.fails("decode a.fcs out --region 0,12,768,12 --from nothing", "cannot read nothing: no such file or directory");
    f.fails("decode a.fcs state --region 0,12,768,12 --from state", "cannot write state: it is also an input");
    let none = "refusal 5: there is no such block: the stream has 2 blocks, counted from 0";
    f.fails("save a.fcs 2 0 out", none);
    // A number after which there is no other.
    f.put("good", b"good");
    f.fails("save a.fcs 18446744073709551615 0 good -f", none);
    assert_eq!(f.get("good"), b"good");
    let past = "refusal 21: there is no such line: the stream has lines 0 to 3";
    f.fails("save a.fcs 0 4 out", past);
    f.fails("save a.fcs all 18446744073709551615 out", past);
    f.fails("save a.fcs 0 0 a.fcs", "cannot write a.fcs: it is also an input");
    let mut cut = wide();
    cut.truncate(1000);
    f.put("cut", &cut);
    f.fails("save cut 0 3 out", "refusal 14: block 0, line 0: a line is truncated");
    let needs = "save needs a stream or camera file, a block or the word all, a line and an output";
    for words in ["save a.fcs 0 out", "save a.fcs 0 x out", "save a.fcs each 0 out", "save a.fcs 0 1 out more"] {
        f.is_wrong(words, needs);
    }
    f.is_wrong("save a.fcs -1 0 out", "save has no option -1");
    f.is_wrong("save a.fcs 0 1 out --quiet", "save has no option --quiet");
    f.is_wrong("decode a.fcs out --from state --windowed", "decode takes --from or --windowed, not both");
    f.is_wrong("decode - out --from -", "standard input is named twice");
}
