//! Nos. 11 and 12: strips with numbered polygons (kind 6), and between the two kinds.
//!
//! Holds and called:
//! - `scan_either(&words)`: the cell and the kind its polygons have (2 or 6, 0 if it has no
//!   polygon), or `Err((3, place))`, then `Err((44, place))`.
//! - `as_kind_2(&words)`: the same strip in kind 2, after the same two checks; so each
//!   earlier judge takes either kind: `seams_either`, `reachable_either`,
//!   `compare_seam_either` below.
//! - `poly_mentioning_either(&words, area)`: No. 10 after No. 11.
//! - `convert_strip(&words, six, &mut out)`: No. 12; `Ok(words written)`, or 3, 44,
//!   `Err((45, 0))`, `Err((2, 0))`; a refusal changes no word of `out`, and words behind
//!   the written ones stay.
//!
//! Time: once over the words (twice in `scan_either`).
//! Written from document 02 (and 01) alone, without a look at the implementation.
//!
//! Readings taken:
//! - Kind 6 stands where kind 2 stands in the order; "a mixture is 3" is part of judging a
//!   record's first word, so it comes in the order of the records, before "whether all its
//!   words are there" of that same record, and a bad record before it comes first.
//! - 44 is looked for only when the whole strip passes 3 ("directly after 3"); its place
//!   is the first word of the first record with a wrong number.
//! - No. 10 "makes both as far as it reads": it reads to the first polygon that mentions
//!   the area, or to the first bad record, or to the strip's end; 3 for all that it reads,
//!   then 44 for all that it reads. So a bad record that is read comes before a wrong
//!   number in front of it. (The other reading, record by record, would give 44 there.)
//! - What `convert_strip` answers is not said; here it is the number of words written.

use crate::{compare_seam::compare_seam, reachable::reachable, seams9::seams9};
use rage::ynv::Ynv;
use strips::scan;

/// The words of a record, its first included.
fn record_words(first: u32) -> usize {
    let vertices = (first & 0xFFF) as usize;
    let edges = (first >> 12 & 0xFFF) as usize;
    let links = (first >> 24 & 0xF) as usize;
    match first >> 28 {
        1 => 14,
        // "flags0 (16 bits), flags1, flags2; a word per link (16 bits); 3 per vertex; 6
        // per edge"
        2 => 4 + links + 3 * vertices + 6 * edges,
        // "a polygon as kind 2, with one word after the first, its number from 0"
        6 => 5 + links + 3 * vertices + 6 * edges,
        3 => 11,
        4 => 4,
        _ => 1,
    }
}

/// A polygon record as kind 2: "kind bits change and its number word comes or goes".
fn polygon_as_kind_2(record: &[u32]) -> Vec<u32> {
    let mut words = record.to_vec();
    if words[0] >> 28 == 6 {
        words[0] = words[0] & 0x0FFF_FFFF | 0x2000_0000;
        words.remove(1);
    }
    words
}

/// "then the rest": the words behind the first, whose unnamed bits are zero.
fn rest_is_good(record: &[u32]) -> bool {
    match record[0] >> 28 {
        2 | 6 => {
            let words = polygon_as_kind_2(record);
            let vertices = (words[0] & 0xFFF) as usize;
            let links = (words[0] >> 24 & 0xF) as usize;
            // "flags0 (16 bits)"
            if words[1] > 0xFFFF {
                return false;
            }
            // "a word per link (16 bits)"
            if words[4..4 + links].iter().any(|&link| link > 0xFFFF) {
                return false;
            }
            // Per half: "area, poly, and unk3 (bits 0-15) with unk2 (16-23)"
            let halves = &words[4 + links + 3 * vertices..];
            halves.chunks(3).all(|half| half[2] <= 0xFF_FFFF)
        }
        // "flags_unk (16 bits)", "area_unk (8 bits)"
        3 => record[1] <= 0xFFFF && record[10] <= 0xFF,
        _ => true,
    }
}

/// Judges the record at `at`, the record before it being of kind `last` (0 for none).
/// Gives the first word behind it, or the place of 3.
fn judge_record(words: &[u32], at: usize, last: u32) -> Result<usize, usize> {
    // "the strip's length if it ends early or lacks its end"
    let Some(&first) = words.get(at) else {
        return Err(words.len());
    };
    // "A record's first word is judged": its kind in the order "one cell, polygons,
    // portals, points, one end", and its unnamed bits. "A strip uses kind 2 throughout or
    // kind 6 throughout"; "a mixture is 3, at the first polygon of the other kind".
    let (before, unnamed): (&[u32], u32) = match first >> 28 {
        1 => (&[0], 0x0FFF_FFFF),
        2 => (&[1, 2], 0),
        6 => (&[1, 6], 0),
        3 => (&[1, 2, 6, 3], 0x0FFF_0000),
        4 => (&[1, 2, 6, 3, 4], 0x0FFF_0000),
        5 => (&[1, 2, 6, 3, 4], 0x0FFF_FFFF),
        _ => (&[], 0),
    };
    if !before.contains(&last) || first & unnamed != 0 {
        return Err(at);
    }
    // "then whether all its words are there"
    let end = at + record_words(first);
    if end > words.len() {
        return Err(words.len());
    }
    // "then the rest"
    if !rest_is_good(&words[at..end]) {
        return Err(at);
    }
    // "the first word after the end if more follow"
    if first >> 28 == 5 && end < words.len() {
        return Err(end);
    }
    Ok(end)
}

/// The records of a well-formed strip, each with its first word's place; or 3.
fn records(words: &[u32]) -> Result<Vec<(usize, &[u32])>, (u32, u64)> {
    let mut found = Vec::new();
    let (mut at, mut last) = (0, 0);
    while last != 5 {
        let end = judge_record(words, at, last).map_err(|place| (3, place as u64))?;
        found.push((at, &words[at..end]));
        last = words[at] >> 28;
        at = end;
    }
    Ok(found)
}

/// "44 a number that isn't its position (place: first word of that record)", of these
/// records' polygons in order.
fn numbers(found: &[(usize, &[u32])]) -> Result<(), (u32, u64)> {
    let mut position: u64 = 0;
    for (at, record) in found {
        let kind = record[0] >> 28;
        if kind == 6 && record[1] as u64 != position {
            return Err((44, *at as u64));
        }
        if kind == 2 || kind == 6 {
            position += 1;
        }
    }
    Ok(())
}

/// The same strip in kind 2, after 3 and 44.
pub fn as_kind_2(words: &[u32]) -> Result<Vec<u32>, (u32, u64)> {
    let found = records(words)?;
    // "44 ... directly after 3 in every call that checks 3"
    numbers(&found)?;
    let mut kind_2 = Vec::new();
    for (_, record) in found {
        kind_2.extend(polygon_as_kind_2(record));
    }
    Ok(kind_2)
}

/// The cell of a strip of either kind ("judged on the polygons without that word"), and
/// its polygons' kind: 2, 6, or 0 for no polygon.
pub fn scan_either(words: &[u32]) -> Result<(Ynv, u32), (u32, u64)> {
    let kind_2 = as_kind_2(words)?;
    let cell = scan(&kind_2).map_err(|place| (3, place as u64))?;
    // The polygons follow the cell, all of one kind: the 15th word tells it.
    let kind = if cell.polys.is_empty() { 0 } else { words[14] >> 28 };
    Ok((cell, kind))
}

/// "44 ... directly after 3 in every call that checks 3, the seam count too"
pub fn seams_either(words: &[u32]) -> Result<u64, (u32, u64)> {
    seams9(&as_kind_2(words)?)
}

/// No. 7 after No. 11: 3, 44, 42, 43.
pub fn reachable_either(words: &[u32], start: u64, marks: &mut [u8]) -> Result<u64, (u32, u64)> {
    reachable(&as_kind_2(words)?, start, marks)
}

/// No. 13 after No. 11: "3 and 44 for A; 46 B is badly formed or wrongly numbered (place:
/// as 3 or 44 would give in B); 47 the two ids are equal."
#[allow(clippy::type_complexity)]
pub fn compare_seam_either(a: &[u32], b: &[u32]) -> Result<(u64, u64, Option<u64>), (u32, u64)> {
    let a = as_kind_2(a)?;
    let b = as_kind_2(b).map_err(|(_, place)| (46, place))?;
    compare_seam(&a, &b)
}

/// No. 10 after No. 11: "No. 10 makes both as far as it reads".
pub fn poly_mentioning_either(words: &[u32], area: u32) -> Result<Option<u64>, (u32, u64)> {
    let mut read: Vec<(usize, &[u32])> = Vec::new();
    let mut answer = None;
    let mut polygons = 0;
    let (mut at, mut last) = (0, 0);
    while last != 5 && answer.is_none() {
        // 3, "only for a record before or at the stopping place, or where there is no
        // such polygon"
        let end = judge_record(words, at, last).map_err(|place| (3, place as u64))?;
        let record = &words[at..end];
        read.push((at, record));
        last = record[0] >> 28;
        at = end;
        if last == 2 || last == 6 {
            let kind_2 = polygon_as_kind_2(record);
            let vertices = (kind_2[0] & 0xFFF) as usize;
            let links = (kind_2[0] >> 24 & 0xF) as usize;
            // "an edge half of that area, its poly not looked at, surplus edges included"
            let halves = &kind_2[4 + links + 3 * vertices..];
            if halves.chunks(3).any(|half| half[0] == area) {
                answer = Some(polygons); // "and stop there"
            }
            polygons += 1;
        }
    }
    // 44 for what was read, after 3.
    numbers(&read)?;
    Ok(answer)
}

/// "Convert a strip to the wanted kind, 6 by a yes, 2 by a no."
pub fn convert_strip(words: &[u32], six: bool, out: &mut [u32]) -> Result<u64, (u32, u64)> {
    // "Checks: 3, 44, then 45 ..., then 2."
    let found = records(words)?;
    numbers(&found)?;
    let is_polygon = |record: &[u32]| record[0] >> 28 == 2 || record[0] >> 28 == 6;
    let wanted = if six { 6 } else { 2 };
    let polygons = found.iter().filter(|(_, record)| is_polygon(record)).count() as u64;
    // "45 already of the wanted kind with at least one polygon"
    if found.iter().any(|(_, record)| record[0] >> 28 == wanted) {
        return Err((45, 0));
    }
    // "or, towards 6, more than 2^32 polygons"
    if six && polygons > 1 << 32 {
        return Err((45, 0));
    }
    let mut made = Vec::new();
    let mut number: u64 = 0;
    for (_, record) in &found {
        if is_polygon(record) && six {
            // "A polygon's kind bits change and its number word comes"
            made.push(record[0] & 0x0FFF_FFFF | 0x6000_0000);
            made.push(number as u32);
            made.extend(&record[1..]);
            number += 1;
        } else if is_polygon(record) {
            // "or goes"
            made.push(record[0] & 0x0FFF_FFFF | 0x2000_0000);
            made.extend(&record[2..]);
        } else {
            // "all else is copied in order"
            made.extend(*record);
        }
    }
    // "2 output too short"
    if out.len() < made.len() {
        return Err((2, 0));
    }
    out[..made.len()].copy_from_slice(&made);
    Ok(made.len() as u64)
}

#[cfg(test)]
mod tests {
    use super::*;

    fn cell(area: u32) -> Vec<u32> {
        let mut w = vec![0x1000_0000, 1, area];
        w.resize(14, 0);
        w
    }

    /// A polygon of kind 2 with one vertex, one edge and one link: 4 + 1 + 3 + 6 words.
    fn two(area: u32) -> Vec<u32> {
        vec![0x2100_1001, 0xFFFF, 8, 9, 7, 1, 2, 3, area, 4, 0xFF_FFFF, area, 5, 0]
    }

    /// The same of kind 6: 15 words.
    fn six(number: u32, area: u32) -> Vec<u32> {
        let mut w = two(area);
        w[0] = 0x6100_1001;
        w.insert(1, number);
        w
    }

    fn portal() -> Vec<u32> {
        vec![0x3000_FFFF, 0xFFFF, 0, 0, 0, 0, 0, 0, 1, 2, 0xFF]
    }

    fn point() -> Vec<u32> {
        vec![0x4000_FFFF, 1, 2, 3]
    }

    fn strip(records: &[Vec<u32>]) -> Vec<u32> {
        let mut w = cell(5);
        for r in records {
            w.extend(r);
        }
        w.push(0x5000_0000);
        w
    }

    fn refused(words: &[u32]) -> Option<(u32, u64)> {
        scan_either(words).err()
    }

    #[test]
    fn either_kind_is_the_same_cell() {
        let in_2 = strip(&[two(4), two(6), portal(), point()]);
        let in_6 = strip(&[six(0, 4), six(1, 6), portal(), point()]);
        let (cell, kind) = scan_either(&in_2).unwrap();
        assert_eq!((cell.polys.len(), cell.portals.len(), cell.points.len(), kind), (2, 1, 1, 2));
        assert_eq!(scan_either(&in_6).unwrap(), (cell, 6));
        assert_eq!(as_kind_2(&in_6), Ok(in_2.clone()));
        assert_eq!(as_kind_2(&in_2), Ok(in_2));
        assert_eq!(scan_either(&strip(&[portal()])).unwrap().1, 0);
    }

    #[test]
    fn mixtures() {
        assert_eq!(refused(&strip(&[two(4), six(1, 4)])), Some((3, 28)));
        assert_eq!(refused(&strip(&[six(0, 4), two(4)])), Some((3, 29)));
        assert_eq!(refused(&strip(&[six(0, 4), six(1, 4), two(4), six(3, 4)])), Some((3, 44)));
        // Its first word is judged before its words are there.
        assert_eq!(refused(&strip(&[two(4), six(1, 4)])[..29]), Some((3, 28)));
        // A mixture comes before a wrong number in front of it.
        assert_eq!(refused(&strip(&[six(7, 4), two(4)])), Some((3, 29)));
        // A bad record before it comes first.
        let mut bad = two(4);
        bad[1] = 0x1_0000;
        assert_eq!(refused(&strip(&[bad, six(1, 4)])), Some((3, 14)));
    }

    #[test]
    fn three_in_kind_6() {
        // The words of a kind 6 record, one missing; and none missing but the end.
        let w = strip(&[six(0, 4)]);
        assert_eq!(w.len(), 30);
        assert_eq!(refused(&w), None);
        assert_eq!(refused(&w[..28]), Some((3, 28)));
        assert_eq!(refused(&w[..29]), Some((3, 29)));
        assert_eq!(refused(&[&w[..], &[0][..]].concat()), Some((3, 30)));
        // flags0, a link, unk of half a and b: behind the number word.
        for (at, value) in [(2, 0x1_0000), (5, 0x1_0000), (11, 0x100_0000), (14, 0x100_0000)] {
            let mut p = six(0, 4);
            p[at] = value;
            assert_eq!(refused(&strip(&[p])), Some((3, 14)), "{at}");
        }
        // Order: kind 6 where kind 2 stands.
        assert_eq!(refused(&strip(&[portal(), six(0, 4)])), Some((3, 25)));
        assert_eq!(refused(&strip(&[point(), six(0, 4)])), Some((3, 18)));
        assert_eq!(refused(&six(0, 4)), Some((3, 0)));
        assert_eq!(refused(&[]), Some((3, 0)));
        // The kinds that stay unknown.
        for kind in [0, 7, 8, 15] {
            assert_eq!(refused(&strip(&[vec![kind << 28]])), Some((3, 14)));
        }
    }

    #[test]
    fn forty_four() {
        assert_eq!(refused(&strip(&[six(1, 4)])), Some((44, 14)));
        assert_eq!(refused(&strip(&[six(0, 4), six(1, 4), six(1, 4), six(9, 4)])), Some((44, 44)));
        assert_eq!(refused(&strip(&[six(0, 4), six(u32::MAX, 4)])), Some((44, 29)));
        // After 3, wherever 3 is.
        let mut more = strip(&[six(1, 4)]);
        more.push(0);
        assert_eq!(refused(&more), Some((3, 30)));
        // In every call.
        let w = strip(&[six(0, 4), six(2, 4)]);
        let mut bytes = [7; 1];
        assert_eq!(seams_either(&w), Err((44, 29)));
        assert_eq!(reachable_either(&w, 9, &mut bytes), Err((44, 29)));
        let other = [cell(6), vec![0x5000_0000]].concat();
        assert_eq!(compare_seam_either(&w, &[]), Err((44, 29)));
        assert_eq!(compare_seam_either(&other, &w), Err((46, 29)));
        assert_eq!(compare_seam_either(&other, &more), Err((46, 30)));
        assert_eq!(compare_seam_either(&strip(&[]), &strip(&[six(0, 4)])), Err((47, 0)));
        assert_eq!(convert_strip(&w, false, &mut []), Err((44, 29)));
    }

    #[test]
    fn calls_take_either() {
        let in_2 = strip(&[two(5), two(4), two(6)]);
        let in_6 = strip(&[six(0, 5), six(1, 4), six(2, 6)]);
        assert_eq!(seams_either(&in_2), Ok(4));
        assert_eq!(seams_either(&in_6), Ok(4));
        let mut marks = [7; 4];
        assert_eq!(reachable_either(&in_6, 0, &mut marks), Ok(1));
        assert_eq!(marks, [1, 0, 0, 7]);
        assert_eq!(reachable_either(&in_6, 3, &mut marks), Err((42, 0)));
        assert_eq!(reachable_either(&in_6, 0, &mut marks[..2]), Err((43, 0)));
        // A is 5, B is 4 with one polygon: A's polygon 1 tells of B's 4 and 5, not there.
        let b = [cell(4), six(0, 5), vec![0x5000_0000]].concat();
        assert_eq!(compare_seam_either(&in_6, &b), Ok((0, 2, Some(1))));
        assert_eq!(compare_seam_either(&in_2, &b), Ok((0, 2, Some(1))));
    }

    #[test]
    fn mentions_as_far_as_it_reads() {
        let w = strip(&[six(0, 4), six(1, 6), six(7, 8), six(3, 10)]);
        // The wrong number (place 44) is behind the stopping place, at it, before it.
        assert_eq!(poly_mentioning_either(&w, 4), Ok(Some(0)));
        assert_eq!(poly_mentioning_either(&w, 6), Ok(Some(1)));
        assert_eq!(poly_mentioning_either(&w, 8), Err((44, 44)));
        assert_eq!(poly_mentioning_either(&w, 10), Err((44, 44)));
        assert_eq!(poly_mentioning_either(&w, 9), Err((44, 44)));
        // A mixture behind the stopping place, and before it.
        let mixed = strip(&[six(0, 4), two(6)]);
        assert_eq!(poly_mentioning_either(&mixed, 4), Ok(Some(0)));
        assert_eq!(poly_mentioning_either(&mixed, 6), Err((3, 29)));
        assert_eq!(poly_mentioning_either(&mixed, 9), Err((3, 29)));
        // A wrong number read, then a bad record read: 3. Stopping between them: 44.
        let both = strip(&[six(7, 4), two(6)]);
        assert_eq!(poly_mentioning_either(&both, 6), Err((3, 29)));
        assert_eq!(poly_mentioning_either(&both, 4), Err((44, 14)));
        // Nothing found in right strips; the number word is no area.
        assert_eq!(poly_mentioning_either(&strip(&[six(0, 4), six(1, 6)]), 1), Ok(None));
        assert_eq!(poly_mentioning_either(&strip(&[two(4), two(6), portal(), point()]), 6), Ok(Some(1)));
        assert_eq!(poly_mentioning_either(&strip(&[]), 6), Ok(None));
        assert_eq!(poly_mentioning_either(&[], 6), Err((3, 0)));
    }

    #[test]
    fn converting() {
        let in_2 = strip(&[two(4), two(6), portal(), point()]);
        let in_6 = strip(&[six(0, 4), six(1, 6), portal(), point()]);
        let n = in_2.len();
        assert_eq!(in_6.len(), n + 2);
        let mut out = vec![77; n + 3];
        assert_eq!(convert_strip(&in_2, true, &mut out), Ok(n as u64 + 2));
        assert_eq!((&out[..n + 2], out[n + 2]), (&in_6[..], 77));
        let mut back = vec![77; n];
        assert_eq!(convert_strip(&in_6, false, &mut back), Ok(n as u64));
        assert_eq!(back, in_2);
        // "A strip without polygons belongs to both kinds and is copied."
        let none = strip(&[portal(), point()]);
        for wanted in [true, false] {
            let mut out = vec![77; none.len()];
            assert_eq!(convert_strip(&none, wanted, &mut out), Ok(none.len() as u64));
            assert_eq!(out, none);
            assert_eq!(convert_strip(&none, wanted, &mut out[1..]), Err((2, 0)));
        }
        // 45 before 2; 2 one word short; nothing changed.
        let untouched = |words: &[u32], wanted, room: usize| {
            let mut out = vec![77; room];
            let answer = convert_strip(words, wanted, &mut out);
            assert_eq!(out, vec![77; room]);
            answer
        };
        assert_eq!(untouched(&in_2, false, 0), Err((45, 0)));
        assert_eq!(untouched(&in_6, true, 0), Err((45, 0)));
        assert_eq!(untouched(&in_2, true, n + 1), Err((2, 0)));
        assert_eq!(untouched(&in_6, false, n - 1), Err((2, 0)));
        // 3, then 44, before 45.
        assert_eq!(untouched(&in_6[..20], true, 0), Err((3, 20)));
        assert_eq!(untouched(&strip(&[six(1, 4)]), true, 0), Err((44, 14)));
        assert_eq!(untouched(&strip(&[six(1, 4)]), false, 99), Err((44, 14)));
        assert_eq!(untouched(&[], true, 9), Err((3, 0)));
    }

    /// Without kind 6 this file's own form check and `strips::scan` must agree.
    #[test]
    fn the_form_check_agrees_with_scan() {
        let whole = strip(&[two(4), two(6), portal(), portal(), point(), point()]);
        let same = |w: &[u32]| {
            let here = scan_either(w).map(|(cell, _)| cell);
            assert_eq!(here, scan(w).map_err(|place| (3, place as u64)), "{w:x?}");
        };
        same(&whole);
        for n in 0..whole.len() {
            same(&whole[..n]);
            let mut without = whole.clone();
            without.remove(n);
            same(&without);
            // Each bit turned over, unless that makes a kind 6.
            for bit in 0..32 {
                let mut w = whole.clone();
                w[n] ^= 1 << bit;
                if w[n] >> 28 != 6 {
                    same(&w);
                }
            }
        }
    }
}
