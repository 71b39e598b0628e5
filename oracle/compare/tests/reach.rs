//! The comparison of where a walker can get to tried by faults: each is put into a stand-in for the
//! library, and must show; the stand-in without one must not.

use compare::plain_reach::reach as plain;
use compare::walks::Comparison;
use rage::ynv::{NavEdge, Ynv};
use strips::{encode, reach, scan, Refusal};

type Marks = Result<Vec<u8>, Refusal>;

/// A call by a function that answers as the judge does.
fn by(judge: impl Fn(&[u32], u64, usize) -> Marks) -> impl FnMut(&[u32], u64, &mut [u8], &mut [u64; 8]) -> u32 {
    move |strip, start, marks, answer| match judge(strip, start, marks.len()) {
        Err(refusal) => {
            answer[0] = refusal.place as u64;
            refusal.number
        }
        Ok(made) => {
            marks[..made.len()].copy_from_slice(&made);
            *answer = [made.iter().filter(|&&mark| mark == 1).count() as u64, 0, 0, 0, 0, 0, 0, 0];
            0
        }
    }
}

/// The judge on a cell that was changed first: so that another step is one, or one is none.
fn on_changed(change: impl Fn(&mut Ynv)) -> impl Fn(&[u32], u64, usize) -> Marks {
    move |strip, start, room| {
        let marks = reach(strip, start, room)?;
        let mut cell = scan(strip).unwrap();
        change(&mut cell);
        let changed = reach(&encode(&cell), start, room)?;
        Ok(if changed.len() == marks.len() { changed } else { marks })
    }
}

/// How many of 1,200 seeded cases differ.
fn differences(mut call: impl FnMut(&[u32], u64, &mut [u8], &mut [u64; 8]) -> u32) -> u64 {
    let mut comparison = Comparison::default();
    comparison.seeded(0, 1200, &mut call);
    comparison.differences()
}

fn each_edge(cell: &mut Ynv, change: impl Fn(&mut NavEdge, u32)) {
    let own = cell.area_id;
    cell.polys.iter_mut().flat_map(|poly| &mut poly.edges).for_each(|edge| change(edge, own));
}

#[test]
fn the_plain_rust_agrees() {
    assert_eq!(differences(by(reach)), 0);
    let call = |strip: &[u32], start: u64, marks: &mut [u8], answer: &mut [u64; 8]| match plain(strip, start, marks) {
        Err(refusal) => {
            answer[0] = refusal.place as u64;
            refusal.number
        }
        Ok(count) => {
            *answer = [count as u64, 0, 0, 0, 0, 0, 0, 0];
            0
        }
    };
    assert_eq!(differences(call), 0);
}

#[test]
fn wrong_steps_show() {
    type Change = fn(&mut Ynv);
    let faults: [(&str, Change); 9] = [
        ("surplus edges", |cell| {
            cell.polys.iter_mut().for_each(|poly| {
                let corner = rage::math::Vec3 { x: 0.0, y: 0.0, z: 0.0 };
                poly.vertices.resize(poly.vertices.len().max(poly.edges.len()), corner);
            })
        }),
        ("only half a", |cell| each_edge(cell, |edge, _| edge.b.poly = 16383)),
        ("only half b", |cell| each_edge(cell, |edge, _| edge.a.poly = 16383)),
        ("poly not cut", |cell| {
            each_edge(cell, |edge, _| {
                [&mut edge.a, &mut edge.b].into_iter().for_each(|half| half.poly = half.poly.min(16383))
            })
        }),
        ("any area", |cell| {
            each_edge(cell, |edge, own| [&mut edge.a, &mut edge.b].into_iter().for_each(|half| half.area_id = own))
        }),
        ("portals both ways", |cell| {
            let mut back = cell.portals.clone();
            for portal in &mut back {
                (portal.poly_from, portal.poly_to) = (portal.poly_to, portal.poly_from);
            }
            cell.portals.extend(back);
        }),
        ("a portal with one own area", |cell| {
            cell.portals.iter_mut().for_each(|portal| portal.area_to = portal.area_from)
        }),
        ("ids cut to 16 bits", |cell| {
            let own = cell.area_id & 0xFFFF;
            each_edge(cell, |edge, old| {
                [&mut edge.a, &mut edge.b]
                    .into_iter()
                    .filter(|half| half.area_id == old)
                    .for_each(|half| half.area_id = own)
            });
            cell.area_id = own;
        }),
        ("no portals", |cell| cell.portals.clear()),
    ];
    for (name, change) in faults {
        assert!(differences(by(on_changed(change))) > 0, "{name} does not show");
    }
}

#[test]
fn wrong_answers_show() {
    // steps from the start alone: no other polygon has edges, and no portal leads from another
    let neighbours = |strip: &[u32], start: u64, room: usize| {
        let marks = reach(strip, start, room)?;
        let mut cell = scan(strip).unwrap();
        cell.portals.retain(|portal| u64::from(portal.poly_from) == start);
        cell.polys.iter_mut().enumerate().filter(|(n, _)| *n as u64 != start).for_each(|(_, poly)| poly.edges.clear());
        let near = reach(&encode(&cell), start, room)?;
        Ok(if near.len() == marks.len() { near } else { marks })
    };
    assert!(differences(by(neighbours)) > 0);
    let late = |strip: &[u32], start: u64, room: usize| match reach(strip, start, room) {
        Err(refusal) if refusal.number == 42 && scan(strip).unwrap().polys.len() > room => Err(Refusal::new(43, 0)),
        marks => marks,
    };
    assert!(differences(by(late)) > 0, "43 before 42");
    let place = |strip: &[u32], start: u64, room: usize| match reach(strip, start, room) {
        Err(refusal) if refusal.number == 42 => Err(Refusal::new(42, start as usize)),
        marks => marks,
    };
    assert!(differences(by(place)) > 0, "a place for 42");
    let without = |strip: &[u32], start: u64, room: usize| {
        let mut marks = reach(strip, start, room)?;
        marks[start as usize] = 0;
        Ok(marks)
    };
    assert!(differences(by(without)) > 0, "the start left out");
}

#[test]
fn what_must_stay_is_watched() {
    let mut right = by(reach);
    let behind = move |strip: &[u32], start: u64, marks: &mut [u8], answer: &mut [u64; 8]| {
        let number = right(strip, start, marks, answer);
        let count = scan(strip).map_or(0, |cell| cell.polys.len());
        if number == 0 && count < marks.len() {
            marks[count] = 0;
        }
        number
    };
    assert!(differences(behind) > 0, "a byte behind the polygons");
    let mut right = by(reach);
    let refused = move |strip: &[u32], start: u64, marks: &mut [u8], answer: &mut [u64; 8]| {
        let number = right(strip, start, marks, answer);
        if number != 0 && !marks.is_empty() {
            marks[0] = 0;
        }
        number
    };
    assert!(differences(refused) > 0, "a byte at a refusal");
    let mut right = by(reach);
    let dirty = move |strip: &[u32], start: u64, marks: &mut [u8], answer: &mut [u64; 8]| {
        let number = right(strip, start, marks, answer);
        answer[7] = 1;
        number
    };
    assert!(differences(dirty) > 0, "the answer's last word");
}
