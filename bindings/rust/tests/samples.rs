//! The repository's sample cells: saving gives the pages that lie beside each strip, and opening them loses no more.

use std::fs;
use std::path::Path;
use ynv::{count_seams, parse_ynv, serialize_ynv, Refusal, Ynv};

/// A sample's file.
fn sample(name: &str) -> Vec<u8> {
    fs::read(Path::new(env!("CARGO_MANIFEST_DIR")).join("../../samples").join(name)).unwrap()
}

fn words(strip: &[u8]) -> Vec<u32> {
    strip.chunks_exact(4).map(|word| u32::from_le_bytes(word.try_into().unwrap())).collect()
}

fn cell(strip: &[u8]) -> Ynv {
    Ynv::from_strip(&words(strip)).unwrap()
}

#[test]
fn samples_save_as_they_lie_there() {
    for (name, polys, dropped, pushed) in
        [("yard", 12, 0, 0), ("east", 5, 0, 0), ("vehicle", 5, 0, 0), ("outside", 2, 2, 4), ("field", 5000, 0, 0)]
    {
        let drawn = cell(&sample(&format!("{name}.strip")));
        let saved = serialize_ynv(&drawn).unwrap();
        assert_eq!((drawn.polys.len(), saved.points_dropped), (polys, dropped), "{name}");
        assert_eq!(saved.coordinates_pushed, pushed, "{name}");
        assert_eq!(saved.points_stored + dropped, drawn.points.len(), "{name}");
        assert!(saved.pages == sample(&format!("{name}.pages")), "{name}");
        let opened = parse_ynv(&saved.pages, &[]).unwrap();
        assert_eq!(opened.points.len() + dropped, drawn.points.len(), "{name}");
        let again = serialize_ynv(&opened).unwrap();
        assert_eq!((again.points_dropped, again.coordinates_pushed, again.numbers_cut), (0, 0, 0), "{name}");
    }
}

/// The beach's two halves towards area 4100 are no seams: that cell lies at the other end of the map.
#[test]
fn seams_lead_to_cells_beside() {
    for (name, seams) in [("yard", 6), ("east", 10), ("vehicle", 0)] {
        assert_eq!(count_seams(&words(&sample(&format!("{name}.strip")))), Ok(seams), "{name}");
    }
}

#[test]
fn the_refused_sample_is_refused() {
    assert_eq!(serialize_ynv(&cell(&sample("refused.strip"))), Err(Refusal::new(Refusal::MANY_LINKS_OF_POLYGON, 1)));
}
