//! The judge on cells at the limits and on fixed pages, and what the Rust does there.

use cases::{limits, pages};
use strips::{counts, derive, encode, expected_read, expected_write, judge_write, laid_out, rust_read, rust_write};
use strips::{ReadAnswer, Refusal, RustRead, RustWrite, WriteAnswer};

#[test]
fn cells() {
    for limit in limits::all() {
        let wanted = limit.refused.map(|(number, place)| Refusal { number, place });
        assert_eq!(judge_write(&limit.cell).err(), wanted, "{}", limit.name);
        let done = rust_write(&limit.cell);
        match (limit.refused, &done) {
            (None, RustWrite::Bytes(bytes)) => assert!(*bytes == laid_out(&limit.cell), "{}", limit.name),
            (Some((10, _)), _) => {}
            (Some((11..=16, _)), RustWrite::Error(_)) => {}
            (Some((17..=20, _)), RustWrite::Panic(text)) => assert!(text.contains("exceeds"), "{text}"),
            (Some((18, _)), RustWrite::Bytes(_)) if limit.cell.points.len() == 65536 => {}
            _ => panic!("{}: the Rust answers {done:?}", limit.name),
        }
        let strip = encode(&limit.cell);
        match (expected_write(&strip, 4 * strip.len(), usize::MAX), wanted) {
            (WriteAnswer::Refused(refusal), Some(wanted)) => assert_eq!(refusal, wanted),
            (WriteAnswer::Bytes(bytes), None) => {
                let short = expected_write(&strip, 4 * strip.len(), bytes.len() - 1);
                assert_eq!(short, WriteAnswer::Refused(Refusal::new(2, 0)));
                let derived = derive(&bytes, &[]).expect("written pages derive a strip");
                let RustRead::Cell(read) = rust_read(&bytes, &[]) else { panic!("{}: not read", limit.name) };
                assert!(encode(&derived.cell) == encode(&read), "{}", limit.name);
                assert_eq!(counts(&read).polys, limit.cell.polys.len());
            }
            other => panic!("{}: {other:?}", limit.name),
        }
        let little = expected_write(&strip, 4 * strip.len() - 1, usize::MAX);
        assert_eq!(little, WriteAnswer::Refused(Refusal::new(1, 0)));
    }
}

#[test]
fn fixed_pages() {
    for case in pages::fixed().into_iter().chain(pages::fixed_of(&pages::vehicle_sample())) {
        let pages = &case.pages;
        let wanted = case.refused.map(|(number, place)| Refusal { number, place });
        assert_eq!(derive(&pages.system, &pages.graphics).err(), wanted, "{}", case.name);
        match (case.refused, rust_read(&pages.system, &pages.graphics)) {
            (None | Some((40, _)), RustRead::Cell(_)) => {}
            (Some((35 | 36 | 39, _)), RustRead::NotRun) => {}
            (Some((30..=39, _)), RustRead::Error(_)) => {}
            // 40 stands before the tree's other faults.
            (Some((40, _)), RustRead::Error(text)) => assert_eq!(text, "sector data"),
            (_, other) => panic!("{}: the Rust answers {other:?}", case.name),
        }
        if let ReadAnswer::Strip { words, .. } = expected_read(&pages.system, &pages.graphics, usize::MAX) {
            let short = expected_read(&pages.system, &pages.graphics, words.len() - 1);
            assert_eq!(short, ReadAnswer::Refused(Refusal::new(2, 0)), "{}", case.name);
        }
    }
}

/// P12.
#[test]
fn empty_cells() {
    let written = |cell| pages::Pages::written(&cell);
    let vehicle = written(cases::cells::empty_vehicle());
    assert_eq!((vehicle.system.len(), vehicle.u32(0x144)), (688, 128));
    assert_eq!(written(cases::cells::empty_grid()).system.len(), 3088);
}
