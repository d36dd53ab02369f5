//! Files that are no Fuji streams, by their first bytes, so that they can be named.
use super::bytes::Tiff;

/// What kind of file this is, if it is known and none that can be read here.
pub fn maker(file: &[u8]) -> Option<String> {
    let at = |from: usize, text: &[u8]| file.get(from..from + text.len()) == Some(text);
    let known: [(usize, &[u8], &str); 15] = [
        (8, b"CR\x02", "a Canon camera file (CR2)"),
        (4, b"ftypcrx ", "a Canon camera file (CR3)"),
        (6, b"HEAPCCDR", "a Canon camera file (CRW)"),
        (0, b"IIRO", "an Olympus camera file (ORF)"),
        (0, b"IIRS", "an Olympus camera file (ORF)"),
        (0, b"MMOR", "an Olympus camera file (ORF)"),
        (0, b"IIU\0", "a Panasonic camera file (RW2)"),
        (0, b"FOVb", "a Sigma camera file (X3F)"),
        (0, b"\0MRM", "a Minolta camera file (MRW)"),
        (0, b"\xFF\xD8\xFF", "a JPEG picture"),
        (0, b"\x89PNG", "a PNG picture"),
        (4, b"ftyphei", "a HEIF picture"),
        (0, b"P5\n", "a PGM picture"),
        (0, b"%PDF", "a PDF file"),
        (0, b"PK\x03\x04", "a zip archive"),
    ];
    let by_bytes = known.iter().find(|(from, text, _)| at(*from, text)).map(|(.., name)| name.to_string());
    by_bytes.or_else(|| Some(tiff(&Tiff::at(file, 0)?)))
}

/// Many makers' files are TIFFs; the name of the maker is in the first directory, and DNG has a tag of its own.
fn tiff(tiff: &Tiff) -> String {
    let Some(first) = tiff.first().and_then(|offset| tiff.directory(offset)) else { return "a damaged TIFF file".to_string() };
    if first.find(0xC612).is_some() {
        return "a camera file of the form DNG".to_string();
    }
    let make = first.find(0x010F).and_then(|e| tiff.text(e)).unwrap_or_default();
    let makers = [
        ("nikon", "a Nikon camera file (NEF)"),
        ("sony", "a Sony camera file (ARW)"),
        ("canon", "a Canon camera file"),
        ("pentax", "a Pentax camera file (PEF)"),
        ("ricoh", "a Ricoh camera file"),
        ("samsung", "a Samsung camera file (SRW)"),
        ("hasselblad", "a Hasselblad camera file (3FR)"),
        ("phase one", "a Phase One camera file (IIQ)"),
        ("leica", "a Leica camera file"),
        ("kodak", "a Kodak camera file"),
        ("epson", "an Epson camera file (ERF)"),
    ];
    let named = makers.iter().find(|(start, _)| make.to_lowercase().starts_with(start));
    named.map_or("a TIFF file".to_string(), |(_, name)| name.to_string())
}
