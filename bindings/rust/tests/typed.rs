//! Typed cells: to strips and back, bit for bit; what a strip has no room for; what saving keeps of them.

mod common;

use common::Seeded;
use ynv::{count_seams, parse, parse_ynv, serialize, serialize_ynv, NavEdge, NavEdgeEnd, NavPoly, Refusal, Vec3, Ynv};

const CELLS: u64 = 2_000;

/// A strip of any numbers, word by word after the layout in include/ynv.h, without the crate's own writer.
fn seeded_strip(seeded: &mut Seeded) -> Vec<u32> {
    let mut strip = vec![1 << 28];
    let any = |seeded: &mut Seeded, words: usize| seeded.list(words, Seeded::word);
    strip.extend(any(seeded, 4));
    strip.extend(seeded.list(9, Seeded::float));
    for _ in 0..seeded.below(5) {
        let [vertices, edges, links] = [seeded.below(7), seeded.below(7), seeded.below(16)];
        strip.push((2 << 28 | links << 24 | edges << 12 | vertices) as u32);
        strip.push(seeded.word() & 0xFFFF);
        strip.extend(any(seeded, 2));
        strip.extend(seeded.list(links, |seeded| seeded.word() & 0xFFFF));
        strip.extend(seeded.list(3 * vertices, Seeded::float));
        for _ in 0..2 * edges {
            strip.extend([seeded.word(), seeded.word(), seeded.word() & 0xFF_FFFF]);
        }
    }
    for _ in 0..seeded.below(4) {
        strip.extend([3 << 28 | seeded.word() & 0xFFFF, seeded.word() & 0xFFFF]);
        strip.extend(seeded.list(6, Seeded::float));
        strip.extend([seeded.word(), seeded.word(), seeded.word() & 0xFF]);
    }
    for _ in 0..seeded.below(4) {
        strip.push(4 << 28 | seeded.word() & 0xFFFF);
        strip.extend(seeded.list(3, Seeded::float));
    }
    strip.push(5 << 28);
    strip
}

#[test]
fn a_cell_comes_back_from_its_strip() {
    for seed in 0..CELLS {
        let cell = Seeded(seed).cell();
        let strip = cell.to_strip().unwrap();
        count_seams(&strip).unwrap_or_else(|refusal| panic!("seed {seed}: {refusal}"));
        assert!(Ynv::from_strip(&strip).unwrap().same_bits(&cell), "seed {seed}");
    }
}

#[test]
fn a_strip_comes_back_from_its_cell() {
    for seed in 0..CELLS {
        let strip = seeded_strip(&mut Seeded(seed));
        assert_eq!(Ynv::from_strip(&strip).unwrap().to_strip().unwrap(), strip, "seed {seed}");
    }
}

/// A strip with one of its words changed, or cut, or with more words behind it: what the library refuses is refused
/// alike, and what it accepts comes back.
#[test]
fn damaged_strips_are_refused_as_the_library_does() {
    let (mut refused, mut accepted) = (0, 0);
    for seed in 0..20 * CELLS {
        let seeded = &mut Seeded(seed);
        let mut strip = seeded_strip(seeded);
        let at = seeded.below(strip.len());
        match seeded.below(5) {
            0 => strip[at] = seeded.word(),
            1 => strip[at] ^= 1 << seeded.below(32),
            2 => strip.truncate(at),
            3 => strip.push(seeded.word()),
            _ => drop(strip.remove(at)),
        }
        match (serialize(&strip), Ynv::from_strip(&strip)) {
            (Err(refusal), typed) if refusal.number == Refusal::BAD_STRIP => {
                refused += 1;
                assert_eq!(typed.unwrap_err(), refusal, "seed {seed}");
            }
            (_, typed) => {
                accepted += 1;
                assert_eq!(typed.unwrap().to_strip().unwrap(), strip, "seed {seed}");
            }
        }
    }
    assert!(refused > 1000 && accepted > 1000, "{refused} refused, {accepted} accepted");
}

#[test]
fn what_a_strip_has_no_room_for() {
    let mut cell = Seeded(7).savable();
    cell.polys = vec![NavPoly::new(vec![Vec3::ZERO; 3]), NavPoly::default()];
    let refused = |poly: NavPoly| {
        let mut cell = cell.clone();
        cell.polys[1] = poly;
        let refusal = cell.to_strip().unwrap_err();
        assert_eq!(serialize_ynv(&cell).unwrap_err(), refusal);
        assert_eq!(refusal.place, 1);
        refusal.number
    };
    let polygon = |vertices, edges, links| NavPoly {
        vertices: vec![Vec3::ZERO; vertices],
        edges: vec![NavEdge::NONE; edges],
        portal_links: vec![7; links],
        ..NavPoly::default()
    };
    assert_eq!(refused(polygon(4096, 0, 0)), Refusal::VERTICES_UNFIT);
    assert_eq!(refused(polygon(3, 4096, 0)), Refusal::EDGES_UNFIT);
    assert_eq!(refused(polygon(3, 3, 16)), Refusal::LINKS_UNFIT);
    // What a strip has room for, the library judges.
    cell.polys[1] = polygon(4095, 4095, 15);
    assert!(Ynv::from_strip(&cell.to_strip().unwrap()).unwrap().same_bits(&cell));
    assert_eq!(serialize_ynv(&cell), Err(Refusal::new(Refusal::VERTEX_COUNT, 1)));
    cell.polys[1] = polygon(3, 4095, 8);
    assert_eq!(serialize_ynv(&cell), Err(Refusal::new(Refusal::MANY_LINKS_OF_POLYGON, 1)));
}

/// An end as pages hold it.
fn narrowed(end: NavEdgeEnd) -> NavEdgeEnd {
    NavEdgeEnd { poly: end.poly & 0x3FFF, unk2: end.unk2 & 3, unk3: end.unk3 & 0x7FF, ..end }
}

/// How many numbers of an end are lost in pages.
fn lost(end: NavEdgeEnd) -> usize {
    let kept = narrowed(end);
    [kept.poly != end.poly, kept.unk2 != end.unk2, kept.unk3 != end.unk3].into_iter().filter(|&lost| lost).count()
}

/// How many coordinates of a cell lie outside its box or are a NaN, by their fractions.
fn pushed(cell: &Ynv) -> usize {
    let outside = |a: f32, lo: f32, side: f32| {
        let fraction = (a - lo) / side;
        side.abs() >= f32::EPSILON && (fraction < 0.0 || fraction > 1.0 || fraction.is_nan())
    };
    let (lo, side) = (cell.bb_min, cell.bb_size);
    let count = |v: Vec3| {
        [(v.x, lo.x, side.x), (v.y, lo.y, side.y), (v.z, lo.z, side.z)]
            .into_iter()
            .filter(|&(a, lo, side)| outside(a, lo, side))
            .count()
    };
    let vertices = cell.polys.iter().flat_map(|poly| poly.vertices.iter().copied());
    let ends = cell.portals.iter().flat_map(|portal| [portal.from, portal.to]);
    vertices.chain(ends).chain(cell.points.iter().map(|point| point.position)).map(count).sum()
}

#[test]
fn saving_says_what_it_loses() {
    for seed in 0..CELLS {
        let cell = Seeded(seed).savable();
        let saved = serialize_ynv(&cell).unwrap_or_else(|refusal| panic!("seed {seed}: {refusal}"));
        let (pages, written) = serialize(&cell.to_strip().unwrap()).unwrap();
        assert_eq!((saved.pages.len(), &saved.pages), (written.length, &pages));
        let told = (saved.points_stored, saved.points_dropped);
        assert_eq!(told, (written.points_stored, written.points_dropped));
        assert_eq!(saved.coordinates_pushed, written.coordinates_pushed);
        assert_eq!(saved.coordinates_pushed, pushed(&cell), "seed {seed}");
        let opened = parse_ynv(&saved.pages, &[]).unwrap();
        assert_eq!(opened.to_strip().unwrap(), parse(&saved.pages, &[]).unwrap().0);
        assert_eq!(told, (opened.points.len(), cell.points.len() - opened.points.len()), "seed {seed}");

        let (mut dropped, mut cut) = (0, 0);
        for (poly, before) in opened.polys.iter().zip(&cell.polys) {
            assert_eq!((poly.flags0, &poly.portal_links), (before.flags0, &before.portal_links));
            dropped += before.edges.len().saturating_sub(poly.edges.len());
            for (edge, was) in poly.edges.iter().zip(&before.edges) {
                assert_eq!((edge.a, edge.b), (narrowed(was.a), narrowed(was.b)));
                cut += lost(was.a) + lost(was.b);
            }
        }
        for (portal, was) in opened.portals.iter().zip(&cell.portals) {
            assert_eq!((portal.kind, portal.angle, portal.flags_unk), (was.kind, was.angle, was.flags_unk));
            let lost =
                [portal.area_from != was.area_from, portal.area_to != was.area_to, portal.area_unk != was.area_unk];
            cut += lost.into_iter().filter(|&lost| lost).count();
        }
        assert_eq!((saved.edges_dropped, saved.numbers_cut), (dropped, cut), "seed {seed}");
    }
}

#[test]
fn equality_goes_by_floats_and_by_bits() {
    let plus = Ynv::new_cell(4040, Vec3::ZERO, Vec3::ZERO);
    let mut minus = plus.clone();
    minus.bb_min.x = -0.0;
    assert!(plus == minus && !plus.same_bits(&minus));
    let mut odd = plus.clone();
    odd.bb_max.z = f32::from_bits(0x7F80_0001); // a signalling NaN
    assert!(odd != odd.clone() && odd.same_bits(&odd.clone()));
    assert_eq!(Ynv::from_strip(&odd.to_strip().unwrap()).unwrap().bb_max.to_bits()[2], 0x7F80_0001);
}

#[test]
fn flags_by_name() {
    let mut poly = NavPoly { flags0: 4 | 64 | 128, flags1: 1024 | 2048, ..NavPoly::default() };
    assert!(poly.is_footpath() && poly.is_steep() && poly.is_water() && poly.is_road() && poly.is_cell_edge());
    assert!(!poly.is_interior() && !poly.is_flat_ground());
    poly.set_interior(true);
    poly.set_flat_ground(true);
    assert_eq!(poly.flags1, 64 | 512 | 1024 | 2048);
    poly.set_interior(false);
    assert_eq!(poly.flags1, 512 | 1024 | 2048);
}

#[test]
fn corners_and_their_middle() {
    let poly = NavPoly::new(vec![Vec3::ZERO, Vec3::new(3.0, 0.0, 6.0), Vec3::new(0.0, -3.0, f32::NAN)]);
    assert_eq!(poly.bounds(), (Vec3::new(0.0, -3.0, 0.0), Vec3::new(3.0, 0.0, 6.0)));
    assert_eq!((poly.centroid().x, poly.centroid().y), (1.0, -1.0));
    assert_eq!(NavPoly::default().bounds(), (Vec3::ZERO, Vec3::ZERO));
    assert_eq!(NavPoly::default().centroid(), Vec3::ZERO);
}
