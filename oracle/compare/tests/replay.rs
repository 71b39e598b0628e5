//! The lists of vectors, replayed as a program without Rust would.

use compare::{under_test, vectors};
use vectors::{reading, writing};

fn words(bytes: &[u8]) -> Vec<u32> {
    bytes.chunks_exact(4).map(|c| u32::from_le_bytes(c.try_into().unwrap())).collect()
}

/// The outputs for a record's inputs.
fn replayed(tag: u32, input: &[u32]) -> Vec<u32> {
    match tag {
        1 => vec![under_test::short(input[0], input[1], input[2])],
        2 => vec![under_test::back(input[0], input[1], input[2])],
        3 => vec![under_test::quarter(input[0], false), under_test::quarter(input[0], true)],
        4 => {
            let (taken, table) = under_test::areas(input[0], &input[1..]);
            [&[taken as u32, table.count], &table.ids[..]].concat()
        }
        5 => {
            let start = under_test::place(input[0], input[1]);
            vec![start as u32, (start >> 32) as u32]
        }
        6 => match under_test::check_strip(input) {
            Ok(counts) => vec![0, counts.polys as u32, counts.portals as u32, counts.points as u32],
            Err(refusal) => vec![refusal.number, refusal.place as u32, 0, 0],
        },
        7 => {
            let mut answer = [0; 8];
            let number = under_test::pick_poly(&input[2..], input[0] as u16, input[1] as u16, &mut answer);
            vec![number, answer[0] as u32, answer[1] as u32]
        }
        8 => {
            let (mut text, mut answer) = (vec![0xD1; input[0] as usize], [0; 8]);
            let number = under_test::export_obj(&input[1..], &mut text, &mut answer);
            let written = if number == 0 { answer[0] as usize } else { 0 };
            assert!(text[written..].iter().all(|&byte| byte == 0xD1), "behind the text");
            text.resize(written.next_multiple_of(4), 0xD1);
            [vec![number, answer[0] as u32], words(&text)].concat()
        }
        9 => {
            let mut answer = [0; 8];
            let number = under_test::count_seams(input, &mut answer);
            assert_eq!(answer[1..], [0; 7], "behind the count");
            vec![number, answer[0] as u32]
        }
        10 => {
            let (mut marks, mut answer) = (vec![0xD1; input[1] as usize], [0; 8]);
            let number = under_test::reachable(&input[2..], input[0].into(), &mut marks, &mut answer);
            let made = marks.iter().take_while(|&&mark| mark != 0xD1).count();
            assert!(marks[made..].iter().all(|&mark| mark == 0xD1), "behind the marks");
            marks.resize(made.next_multiple_of(4), 0xD1);
            [vec![number, answer[0] as u32], words(&marks)].concat()
        }
        tag => panic!("unknown tag {tag}"),
    }
}

#[test]
fn replay() {
    let list = vectors::all();
    let bytes = list.bytes();
    assert!(bytes.len() <= vectors::MOST_BYTES);
    assert_eq!(bytes, vectors::all().bytes(), "the list is the same each time");
    let least = |tag| match tag {
        0..=6 => 100,
        7..=9 => 60,
        _ => 48,
    };
    assert!(list.counts.iter().all(|&(tag, count)| count >= least(tag)));

    let words = words(&bytes);
    let mut at = 0;
    while words[at] != 0 {
        let (tag, inputs, outputs) = (words[at], words[at + 1] as usize, words[at + 2] as usize);
        let (input, rest) = words[at + 3..].split_at(inputs);
        assert_eq!(replayed(tag, input), rest[..outputs], "tag {tag} at word {at}: {input:x?}");
        at += 3 + inputs + outputs;
    }
    assert_eq!(words[at..], [0, 0, 0]);
}

/// The bytes of so many words, without their padding.
fn section(words: &[u32], length: usize) -> Vec<u8> {
    let bytes: Vec<u8> = words.iter().flat_map(|w| w.to_le_bytes()).collect();
    assert!(bytes[length..].iter().all(|&byte| byte == 0), "padding");
    bytes[..length].to_vec()
}

#[test]
fn replay_reading() {
    let list = reading::all();
    let bytes = list.bytes();
    assert!(bytes.len() <= reading::MOST_BYTES);
    assert_eq!(bytes, reading::all().bytes(), "the list is the same each time");
    assert!([0, 2].into_iter().chain(30..=40).all(|number| list.counts[&number] >= 8));
    assert!(list.counts.values().sum::<usize>() >= 300);

    let words = words(&bytes);
    let mut at = 0;
    while words[at] != 0 {
        let record: [u32; 10] = words[at..at + 10].try_into().unwrap();
        let [7, system, graphics, lent, number, values @ ..] = record else { panic!("no record at {at}") };
        let (system, graphics) = (system as usize, graphics as usize);
        let (first, rest) = words[at + 10..].split_at(system.div_ceil(4));
        let (second, rest) = rest.split_at(graphics.div_ceil(4));
        let (system, graphics) = (section(first, system), section(second, graphics));
        let (mut strip, mut answer) = (vec![0xDEAD_BEEF; lent as usize], [0; 8]);
        assert_eq!(under_test::parse(&system, &graphics, &mut strip, &mut answer), number, "at word {at}");
        assert_eq!(answer[..5], values.map(u64::from), "at word {at}");
        let filled = if number == 0 { values[0] as usize } else { 0 };
        assert_eq!(strip[..filled], rest[..filled], "at word {at}");
        assert!(strip[filled..].iter().all(|&word| word == 0xDEAD_BEEF), "at word {at}");
        at += 10 + first.len() + second.len() + filled;
    }
    assert_eq!(words[at..], [0]);
}

#[test]
fn replay_writing() {
    let list = writing::all();
    let bytes = list.bytes();
    assert!(bytes.len() <= writing::MOST_BYTES);
    assert_eq!(bytes, writing::all().bytes(), "the list is the same each time");
    assert!((0..=3).chain(10..=20).all(|number| list.counts[&number] >= 4));
    assert!(list.counts.values().sum::<usize>() >= 300);
    assert!(list.dropping >= 8 && list.pushing >= 8);

    let words = words(&bytes);
    let mut at = 0;
    while words[at] != 0 {
        let record: [u32; 15] = words[at..at + 15].try_into().unwrap();
        let [8, work, room, number, .., sum, told, runs] = record else { panic!("no record at {at}") };
        let values = &record[4..12];
        let (runs, rest) = words[at + 15..].split_at(runs as usize);
        let strip = writing::unrolled(runs);
        let (mut lent, mut pages, mut answer) = (vec![!0; work as usize], vec![0xD1; room as usize], [0; 8]);
        assert_eq!(under_test::serialize(&strip, &mut lent, &mut pages, &mut answer), number, "at word {at}");
        assert_eq!(answer.map(|word| word as u32), values, "at word {at}");
        let filled = if number == 0 { values[0] as usize } else { 0 };
        assert_eq!(if number == 0 { writing::checksum(&pages[..filled]) } else { 0 }, sum, "at word {at}");
        assert!(pages[filled..].iter().all(|&byte| byte == 0xD1), "at word {at}");
        let padded = (told as usize).div_ceil(4);
        assert_eq!(section(&rest[..padded], told as usize), pages[..told as usize], "at word {at}");
        at += 15 + runs.len() + padded;
    }
    assert_eq!(words[at..], [0]);
}
