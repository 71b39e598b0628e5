//! The comparison of the drawing as OBJ text, tried before there is a library: a C entry made from
//! the judge shows no difference, nor does the plain Rust; with a fault put into it, it does.

use std::fmt::Write;
use std::slice::{from_raw_parts, from_raw_parts_mut};

use cases::drawings::FIXED;
use cases::Rng;
use compare::obj::{Call, Comparison};
use compare::plain_obj;
use rage::math::Vec3;
use rage::ynv::Ynv;
use strips::{encode, obj, scan, short, Refusal};

const CASES: u64 = 1500;
const STEP: u64 = 50;

/// Differences, up to the first cases that show one: seeded ones, then fixed ones.
fn differences(mut call: impl Call) -> u64 {
    let mut comparison = Comparison::default();
    for first in (0..CASES).step_by(STEP as usize) {
        if comparison.differences() == 0 {
            comparison.seeded(first, STEP, &mut call);
        }
    }
    for (name, make) in FIXED {
        if comparison.differences() == 0 {
            comparison.case("fixed", name, &encode(&make()), &mut Rng::new(1), &mut call);
        }
    }
    comparison.differences()
}

/// A text or a refusal put where an entry puts it.
fn put(made: Result<Vec<u8>, Refusal>, text: &mut [u8], answer: &mut [u64; 8]) -> u32 {
    match made {
        Ok(bytes) => {
            text[..bytes.len()].copy_from_slice(&bytes);
            *answer = [bytes.len() as u64, 0, 0, 0, 0, 0, 0, 0];
            0
        }
        Err(refusal) => {
            answer[0] = refusal.place as u64;
            refusal.number
        }
    }
}

unsafe extern "C" fn export_obj(
    strip: *const u32,
    strip_len: usize,
    text: *mut u8,
    text_len: usize,
    answer: *mut u64,
) -> u32 {
    let (strip, text) = (from_raw_parts(strip, strip_len), from_raw_parts_mut(text, text_len));
    put(obj(strip, text.len()), text, &mut *(answer as *mut [u64; 8]))
}

fn by_the_entry(strip: &[u32], text: &mut [u8], answer: &mut [u64; 8]) -> u32 {
    unsafe { export_obj(strip.as_ptr(), strip.len(), text.as_mut_ptr(), text.len(), answer.as_mut_ptr()) }
}

#[test]
fn a_right_entry_shows_no_difference() {
    assert_eq!(differences(by_the_entry), 0);
}

#[test]
fn plain_rust_shows_no_difference() {
    for plain in [plain_obj::obj, plain_obj::obj_by_length] {
        let call = |strip: &[u32], text: &mut [u8], answer: &mut [u64; 8]| {
            let mut bytes = Vec::new();
            let made = plain(strip, text.len(), &mut bytes).map(|()| bytes);
            put(made, text, answer)
        };
        assert_eq!(differences(call), 0);
    }
}

/// Every fault must show.
fn shows(name: &str, call: impl Call) {
    assert!(differences(call) > 0, "not noticed: {name}");
}

/// The checks before the length, in their order.
fn checked(strip: &[u32]) -> Result<Ynv, Refusal> {
    obj(strip, 0).or_else(|refusal| if refusal.number == 2 { Ok(Vec::new()) } else { Err(refusal) })?;
    Ok(scan(strip).expect("an accepted strip is well formed"))
}

/// A fault of the text alone.
fn text_shows(name: &str, text: impl Fn(&Ynv) -> String) {
    shows(name, |strip, lent, answer| {
        let room = lent.len();
        let made = checked(strip).map(|cell| text(&cell).into_bytes());
        let made = made.and_then(|bytes| if bytes.len() > room { Err(Refusal::new(2, 0)) } else { Ok(bytes) });
        put(made, lent, answer)
    });
}

/// A way to make a short.
type Short = fn(f32, f32, f32) -> u16;

fn shorts(cell: &Ynv, v: Vec3, short: Short) -> [u16; 3] {
    let (lo, extent) = (cell.bb_min, cell.bb_size);
    [short(v.x, lo.x, extent.x), short(v.y, lo.y, extent.y), short(v.z, lo.z, extent.z)]
}

/// The lines of the vertices.
fn vertex_lines(cell: &Ynv, short: Short, line: impl Fn([u16; 3]) -> String) -> String {
    cell.polys.iter().flat_map(|poly| &poly.vertices).map(|&v| line(shorts(cell, v, short))).collect()
}

/// The lines of the faces; a number goes by the vertices before it in the text, and in its face.
fn face_lines(cell: &Ynv, number: impl Fn(u64, u64) -> String) -> String {
    let (mut text, mut before) = (String::new(), 0);
    for poly in &cell.polys {
        text.push('f');
        for k in 0..poly.vertices.len() as u64 {
            write!(text, " {}", number(before + k, k)).unwrap();
        }
        text.push('\n');
        before += poly.vertices.len() as u64;
    }
    text
}

fn usual_line([x, y, z]: [u16; 3]) -> String {
    format!("v {x} {y} {z}\n")
}

fn usual_number(before: u64, _: u64) -> String {
    (before + 1).to_string()
}

fn usual(cell: &Ynv) -> String {
    vertex_lines(cell, short, usual_line) + &face_lines(cell, usual_number)
}

#[test]
fn faults_of_vertices_show() {
    let with = |name: &str, line: fn([u16; 3]) -> String| {
        text_shows(name, |cell| vertex_lines(cell, short, line) + &face_lines(cell, usual_number));
    };
    with("y and z swapped", |[x, y, z]| format!("v {x} {z} {y}\n"));
    with("x and y swapped", |[x, y, z]| format!("v {y} {x} {z}\n"));
    with("a leading zero", |[x, y, z]| format!("v {x} {y} {z:02}\n"));
    with("always five digits", |[x, y, z]| format!("v {x:05} {y:05} {z:05}\n"));
    with("0 without a digit", |numbers| {
        let [x, y, z] = numbers.map(|n| if n == 0 { String::new() } else { n.to_string() });
        format!("v {x} {y} {z}\n")
    });
    with("signed", |numbers| usual_signed(numbers.map(|n| n as i16)));
    with("two spaces", |[x, y, z]| format!("v {x} {y}  {z}\n"));
    with("a space at the end", |[x, y, z]| format!("v {x} {y} {z} \n"));
    with("a carriage return", |[x, y, z]| format!("v {x} {y} {z}\r\n"));
    with("as floats", |[x, y, z]| format!("v {x}.0 {y}.0 {z}.0\n"));
    with("another letter", |[x, y, z]| format!("V {x} {y} {z}\n"));
}

fn usual_signed([x, y, z]: [i16; 3]) -> String {
    format!("v {x} {y} {z}\n")
}

fn flat(extent: f32) -> bool {
    extent.abs() < f32::EPSILON
}

/// What is rounded to a short on an axis that isn't flat.
fn scaled(a: f32, lo: f32, extent: f32) -> f32 {
    ((a - lo) / extent).clamp(0.0, 1.0) * 65535.0
}

#[test]
fn faults_of_shorts_show() {
    let with = |name: &str, short: Short| {
        text_shows(name, |cell| vertex_lines(cell, short, usual_line) + &face_lines(cell, usual_number));
    };
    with("rounded down", |a, lo, extent| if flat(extent) { 0 } else { scaled(a, lo, extent) as u16 });
    with(
        "halves to even",
        |a, lo, extent| {
            if flat(extent) {
                0
            } else {
                scaled(a, lo, extent).round_ties_even() as u16
            }
        },
    );
    with("a small extent taken", |a, lo, extent| scaled(a, lo, extent).round() as u16);
    with("2^-23 taken for small", |a, lo, extent| if extent.abs() <= f32::EPSILON { 0 } else { short(a, lo, extent) });
    with("a negative extent taken for small", |a, lo, extent| if extent < 0.0 { 0 } else { short(a, lo, extent) });
    with("a NaN at the far end", |a, lo, extent| if a.is_nan() { 65535 } else { short(a, lo, extent) });
    with("up to 65,534", |a, lo, extent| short(a, lo, extent).min(65534));
    text_shows("by the box's corners", |cell| {
        let by_corners = cases::cells::empty(cell.content_flags, cell.area_id, cell.bb_min, cell.bb_max);
        usual(&Ynv { polys: cell.polys.clone(), ..by_corners })
    });
}

#[test]
fn faults_of_faces_show() {
    let with = |name: &str, number: fn(u64, u64) -> String| {
        text_shows(name, |cell| vertex_lines(cell, short, usual_line) + &face_lines(cell, number));
    };
    with("numbers from 0", |before, _| before.to_string());
    with("numbers that start again", |_, k| (k + 1).to_string());
    with("numbers of 16 bits", |before, _| (before as u16).wrapping_add(1).to_string());
    with("a leading zero", |before, _| format!("{:02}", before + 1));
    with("numbers counted back", |before, k| format!("-{}", before - k + 1));
    with("a texture's number", |before, _| format!("{0}/{0}", before + 1));
    text_shows("no newline at the end", |cell| usual(cell).trim_end().to_string());
    text_shows("a newline more", |cell| usual(cell) + "\n");
    text_shows("the first vertex again", |cell| {
        let mut closed = cell.clone();
        closed.polys.iter_mut().for_each(|poly| poly.vertices.push(poly.vertices[0]));
        vertex_lines(cell, short, usual_line) + &face_lines(&closed, usual_number)
    });
    text_shows("faces before vertices", |cell| face_lines(cell, usual_number) + &vertex_lines(cell, short, usual_line));
    text_shows("each face behind its vertices", |cell| {
        let faces = face_lines(cell, usual_number);
        let one = |poly: &rage::ynv::NavPoly, face: &str| {
            let lines = poly.vertices.iter().map(|&v| usual_line(shorts(cell, v, short)));
            lines.collect::<String>() + face + "\n"
        };
        cell.polys.iter().zip(faces.lines()).map(|(poly, face)| one(poly, face)).collect()
    });
    text_shows("equal vertices shared", shared);
    text_shows("polygons from the last", |cell| {
        let mut back = cell.clone();
        back.polys.reverse();
        usual(&back)
    });
    text_shows("points as vertices", |cell| {
        let points = cell.points.iter().map(|point| usual_line(shorts(cell, point.position, short)));
        vertex_lines(cell, short, usual_line) + &points.collect::<String>() + &face_lines(cell, usual_number)
    });
    text_shows("a comment at the start", |cell| format!("# area {}\n{}", cell.area_id, usual(cell)));
}

fn shared(cell: &Ynv) -> String {
    let (mut lines, mut faces) = (Vec::new(), String::new());
    for poly in &cell.polys {
        faces.push('f');
        for &v in &poly.vertices {
            let line = usual_line(shorts(cell, v, short));
            let number = lines.iter().position(|other| *other == line).unwrap_or_else(|| {
                lines.push(line);
                lines.len() - 1
            });
            write!(faces, " {}", number + 1).unwrap();
        }
        faces.push('\n');
    }
    lines.concat() + &faces
}

/// A fault of the checks: what is refused instead of what the judge refuses or accepts.
fn checks_show(name: &str, made: impl Fn(&[u32], usize) -> Result<Vec<u8>, Refusal>) {
    shows(name, |strip, text, answer| put(made(strip, text.len()), text, answer));
}

/// The judge, but with a refusal changed.
fn changed(number: u32, change: impl Fn(&[u32], Refusal) -> Refusal) -> impl Fn(&[u32], usize) -> Answer {
    move |strip, room| {
        obj(strip, room).map_err(|refusal| if refusal.number == number { change(strip, refusal) } else { refusal })
    }
}

type Answer = Result<Vec<u8>, Refusal>;

/// The judge, but with a further refusal before 2 where a polygon is refused.
fn narrower(number: u32, refused: impl Fn(&Ynv) -> Option<usize>) -> impl Fn(&[u32], usize) -> Answer {
    move |strip, room| {
        let cell = checked(strip)?;
        refused(&cell).map_or_else(|| obj(strip, room), |place| Err(Refusal::new(number, place)))
    }
}

fn under_3(cell: &Ynv) -> Option<usize> {
    cell.polys.iter().position(|poly| poly.vertices.len() < 3)
}

#[test]
fn faults_of_checks_show() {
    checks_show("41 after 2", |strip, room| {
        let length = |cell: Ynv| usual(&cell).len();
        match obj(strip, room) {
            Err(refusal) if refusal.number == 41 && scan(strip).is_ok_and(|cell| length(cell) > room) => {
                Err(Refusal::new(2, 0))
            }
            made => made,
        }
    });
    checks_show("41 before 10", |strip, room| match (obj(strip, room), scan(strip)) {
        (Err(refusal), Ok(cell)) if refusal.number == 10 => {
            Err(under_3(&cell).map_or(refusal, |place| Refusal::new(41, place)))
        }
        (made, _) => made,
    });
    checks_show("10 before 3", |strip, room| {
        let odd = strip.len() > 13 && strip[5..14].iter().any(|&bits| !f32::from_bits(bits).is_finite());
        if odd {
            Err(Refusal::new(10, 0))
        } else {
            obj(strip, room)
        }
    });
    checks_show("2 before 10", |strip, room| match (obj(strip, room), scan(strip)) {
        (Err(refusal), Ok(cell)) if refusal.number == 10 && usual(&cell).len() > room => Err(Refusal::new(2, 0)),
        (made, _) => made,
    });
    checks_show("12 instead of 41", changed(41, |_, refusal| Refusal::new(12, refusal.place)));
    checks_show("polygons from 1", changed(41, |_, refusal| Refusal::new(41, refusal.place + 1)));
    checks_show("41 without a place", changed(41, |_, _| Refusal::new(41, 0)));
    checks_show("a place of 16 bits", changed(41, |_, refusal| Refusal::new(41, refusal.place as u16 as usize)));
    checks_show(
        "41 at the last such polygon",
        changed(41, |strip, _| {
            let cell = scan(strip).unwrap();
            Refusal::new(41, cell.polys.iter().rposition(|poly| poly.vertices.len() < 3).unwrap())
        }),
    );
    checks_show("the place of 2", |strip, room| {
        obj(strip, room).map_err(|refusal| {
            let length = |strip: &[u32]| obj(strip, usize::MAX).unwrap().len();
            if refusal.number == 2 {
                Refusal::new(2, length(strip))
            } else {
                refusal
            }
        })
    });
    checks_show("2 where it fits exactly", |strip, room| {
        obj(strip, room).and_then(|text| if text.len() == room { Err(Refusal::new(2, 0)) } else { Ok(text) })
    });
    checks_show("2 by a bound", |strip, room| {
        obj(strip, room).and_then(|text| if room < 14 * strip.len() { Err(Refusal::new(2, 0)) } else { Ok(text) })
    });
    checks_show("cut instead of 2", |strip, room| {
        obj(strip, usize::MAX).map(|text| text[..text.len().min(room)].to_vec())
    });
    checks_show("2 vertices accepted", |strip, room| match (obj(strip, room), scan(strip)) {
        (Err(refusal), Ok(cell)) if refusal.number == 41 && cell.polys.iter().all(|p| p.vertices.len() > 1) => {
            let text = usual(&cell).into_bytes();
            if text.len() > room {
                Err(Refusal::new(2, 0))
            } else {
                Ok(text)
            }
        }
        (made, _) => made,
    });
    checks_show(
        "over 2,047 vertices",
        narrower(12, |cell| cell.polys.iter().position(|poly| poly.vertices.len() > 2047)),
    );
    checks_show("over 7 links", narrower(16, |cell| cell.polys.iter().position(|poly| poly.portal_links.len() > 7)));
    checks_show("over 16,383 polygons", narrower(11, |cell| (cell.polys.len() > 16_383).then_some(0)));
    checks_show("no polygons", narrower(41, |cell| cell.polys.is_empty().then_some(0)));
    checks_show("a box upside down", narrower(10, |cell| (cell.bb_size.z < 0.0).then_some(0)));
}

#[test]
fn faults_of_memory_show() {
    shows("a zero behind the text", |strip, text, answer| {
        let number = by_the_entry(strip, text, answer);
        if number == 0 && text.len() > answer[0] as usize {
            text[answer[0] as usize] = 0;
        }
        number
    });
    shows("text written before 2", |strip, text, answer| {
        let number = by_the_entry(strip, text, answer);
        if number == 2 && !text.is_empty() {
            text[0] = b'v';
        }
        number
    });
    shows("text written before 41", |strip, text, answer| {
        let number = by_the_entry(strip, text, answer);
        if number == 41 && text.len() > 1 {
            text[..2].copy_from_slice(b"v ");
        }
        number
    });
    shows("a second word at a refusal", |strip, text, answer| {
        let number = by_the_entry(strip, text, answer);
        if number != 0 {
            answer[1] = 0;
        }
        number
    });
    shows("a word left dirty", |strip, text, answer| {
        let last = answer[7];
        let number = by_the_entry(strip, text, answer);
        answer[7] = last;
        number
    });
    shows("another length", |strip, text, answer| {
        let number = by_the_entry(strip, text, answer);
        if number == 0 {
            answer[0] += 1;
        }
        number
    });
    // Only in the first call, where there are guards on both sides.
    for (what, behind) in [("a byte behind the lent ones", true), ("a byte before the lent ones", false)] {
        let mut calls = 0;
        shows(what, |strip, text, answer| {
            calls += 1;
            let number = by_the_entry(strip, text, answer);
            if calls == 1 {
                let at = if behind { text.len() as isize } else { -1 };
                unsafe { *text.as_mut_ptr().offset(at) ^= 1 };
            }
            number
        });
    }
}
