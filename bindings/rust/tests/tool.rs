//! The tool, by running it: its verbs, its statuses, and that no failure costs a file.

mod common;

use common::Seeded;
use std::ffi::OsStr;
use std::fs;
use std::io::Write;
use std::path::{Path, PathBuf};
use std::process::{Command, Output, Stdio};
use ynv::{NavEdge, NavPoint, NavPoly, NavPortal, Vec3, Ynv};

const TOOL: &str = env!("CARGO_BIN_EXE_ynv");
/// P12's vehicle.
const SAMPLE: &str = concat!(env!("CARGO_MANIFEST_DIR"), "/../../crates/cellsum/stdin");

fn run<S: AsRef<OsStr>>(arguments: impl IntoIterator<Item = S>) -> Output {
    Command::new(TOOL).args(arguments).output().unwrap()
}

fn out(output: &Output) -> String {
    String::from_utf8(output.stdout.clone()).unwrap()
}

fn err(output: &Output) -> String {
    String::from_utf8_lossy(&output.stderr).into_owned()
}

/// An empty folder of this name for a test.
fn folder(name: &str) -> PathBuf {
    let path = Path::new(env!("CARGO_TARGET_TMPDIR")).join(name);
    let _ = fs::remove_dir_all(&path);
    fs::create_dir_all(&path).unwrap();
    path
}

fn text(path: &Path) -> &str {
    path.to_str().unwrap()
}

fn bytes(strip: &[u32]) -> Vec<u8> {
    strip.iter().flat_map(|word| word.to_le_bytes()).collect()
}

/// Two polygons side by side at the east side of a cell, with all that a cell can have.
fn yard() -> Ynv {
    let mut cell = Ynv::new_cell(4040, Vec3::ZERO, Vec3::new(150.0, 150.0, 50.0));
    cell.content_flags |= ynv::CONTENT_PORTALS;
    for (left, right) in [(0.0, 100.0), (100.0, 150.0)] {
        let corners = [(left, 0.0), (right, 0.0), (right, 150.0), (left, 150.0)];
        cell.polys.push(NavPoly::new(corners.map(|(x, y)| Vec3::new(x, y, 7.0)).to_vec()));
    }
    cell.polys[0].edges[1] = NavEdge::neighbour(4040, 1);
    cell.polys[1].edges[3] = NavEdge::neighbour(4040, 0);
    cell.polys[1].edges[1] = NavEdge::neighbour(4041, 5);
    cell.polys[1].portal_links.push(0);
    let (from, to) = (Vec3::new(20.0, 20.0, 7.0), Vec3::new(40.0, 20.0, 7.0));
    cell.portals.push(NavPortal { kind: 1, from, to, area_from: 4040, area_to: 4040, ..NavPortal::default() });
    cell.points.push(NavPoint { position: Vec3::new(75.0, 75.0, 7.0), angle: 64, kind: 3 });
    cell.points.push(NavPoint { position: Vec3::new(-5.0, 75.0, 7.0), angle: 0, kind: 3 });
    cell
}

/// The yard's strip in a file of this folder.
fn yard_strip(folder: &Path) -> PathBuf {
    let path = folder.join("yard.strip");
    fs::write(&path, bytes(&yard().to_strip().unwrap())).unwrap();
    path
}

/// What is in a folder, so that nothing is left there unseen.
fn names(folder: &Path) -> Vec<String> {
    let mut names: Vec<String> =
        fs::read_dir(folder).unwrap().map(|entry| entry.unwrap().file_name().to_string_lossy().into_owned()).collect();
    names.sort();
    names
}

#[test]
fn there_and_back() {
    let folder = folder("there_and_back");
    let (strip, pages) = (folder.join("sample.strip"), folder.join("sample.pages"));
    let read = run(["read", SAMPLE, text(&strip)]);
    assert_eq!((out(&read).as_str(), read.status.code()), ("words 15 polys 0 portals 0 points 0 sectors 1\n", Some(0)));
    assert_eq!(fs::read(&strip).unwrap()[8..12], 10_000u32.to_le_bytes());
    let written = run(["write", text(&strip), text(&pages)]);
    assert_eq!(out(&written), "bytes 688\n");
    assert_eq!(fs::read(&pages).unwrap(), fs::read(SAMPLE).unwrap());
    assert_eq!(names(&folder), ["sample.pages", "sample.strip"]);
}

#[test]
fn dropped_points_are_told() {
    let folder = folder("dropped");
    let (strip, pages) = (folder.join("benches.strip"), folder.join("benches.pages"));
    let said = |inside: usize, outside: usize, to: &str| {
        let mut cell = Ynv::new_cell(4040, Vec3::ZERO, Vec3::new(150.0, 150.0, 50.0));
        let bench = |x: f32| NavPoint { position: Vec3::new(x, 75.0, 7.0), ..NavPoint::default() };
        cell.points = [vec![bench(75.0); inside], vec![bench(151.0); outside]].concat();
        fs::write(&strip, bytes(&cell.to_strip().unwrap())).unwrap();
        let output = run(["write", text(&strip), to]);
        assert_eq!(output.status.code(), Some(0));
        output
    };
    for (inside, outside, told) in [
        (0, 0, ""),
        (40, 0, ""),
        (38, 2, "; 38 points stored, 2 lie outside the box and were dropped; coordinates pushed to the border 2"),
        (1, 1, "; 1 point stored, 1 lies outside the box and was dropped; coordinates pushed to the border 1"),
        (0, 3, "; 0 points stored, 3 lie outside the box and were dropped; coordinates pushed to the border 3"),
    ] {
        let output = said(inside, outside, text(&pages));
        let length = fs::metadata(&pages).unwrap().len();
        assert_eq!((out(&output), err(&output)), (format!("bytes {length}{told}\n"), String::new()));
    }
    // Where standard output is the pages, the error output has the words.
    said(38, 2, text(&pages));
    let output = said(38, 2, "-");
    assert_eq!(output.stdout, fs::read(&pages).unwrap());
    let told = "38 points stored, 2 lie outside the box and were dropped; coordinates pushed to the border 2";
    assert_eq!(err(&output), format!("ynv: {}: {told}\n", strip.display()));
    assert_eq!(err(&said(40, 0, "-")), "");
}

/// Above the box a polygon is pushed down to it and a point stays in its leaf: nothing else is lost.
#[test]
fn pushed_coordinates_are_told() {
    let folder = folder("pushed");
    let (strip, pages) = (folder.join("roof.strip"), folder.join("roof.pages"));
    let mut cell = Ynv::new_cell(4040, Vec3::ZERO, Vec3::new(150.0, 150.0, 50.0));
    let roof = [(10.0, 10.0), (20.0, 10.0), (20.0, 20.0)].map(|(x, y)| Vec3::new(x, y, 51.0));
    cell.polys.push(NavPoly::new(roof.to_vec()));
    cell.points.push(NavPoint { position: Vec3::new(15.0, 15.0, -1.0), ..NavPoint::default() });
    fs::write(&strip, bytes(&cell.to_strip().unwrap())).unwrap();
    let output = run(["write", text(&strip), text(&pages)]);
    let length = fs::metadata(&pages).unwrap().len();
    assert_eq!(out(&output), format!("bytes {length}; coordinates pushed to the border 4\n"));
    let checked = out(&run(["check", text(&strip)]));
    assert!(checked.ends_with("; coordinates pushed to the border 4\n"), "{checked}");
    // What was saved stands at the border, and there nothing is pushed any more.
    assert!(out(&run(["check", text(&pages)])).ends_with(&format!("saves, bytes {length}\n")));
}

#[test]
fn through_pipes() {
    let mut tool = Command::new(TOOL);
    let mut child = tool.args(["read", "-", "-"]).stdin(Stdio::piped()).stdout(Stdio::piped()).spawn().unwrap();
    child.stdin.take().unwrap().write_all(&fs::read(SAMPLE).unwrap()).unwrap();
    let output = child.wait_with_output().unwrap();
    assert_eq!((output.stdout.len(), output.status.code()), (60, Some(0)));
}

#[test]
fn refusals_have_status_1_and_say_what_to_do() {
    let folder = folder("refusals");
    let (short, strip) = (folder.join("short.pages"), folder.join("short.strip"));
    fs::write(&short, [0; 100]).unwrap();
    let read = run(["read", text(&short), text(&strip)]);
    assert_eq!(read.status.code(), Some(1));
    let advice = "This is no system section of a cell, or it is cut off: unpack the file again.";
    let said = format!("{}: refused 30: The pages have no whole header. {advice}\n", short.display());
    assert_eq!(err(&read), format!("ynv: {said}"));
    assert!(!strip.exists());

    // For `check` a refusal is the answer: it goes to standard output, and the other files have their lines.
    let mut cell = yard();
    cell.polys[1].portal_links = vec![0; 8];
    fs::write(&strip, bytes(&cell.to_strip().unwrap())).unwrap();
    let yard = yard_strip(&folder);
    let check = run(["check", text(&short), SAMPLE, text(&strip), text(&yard)]);
    let lines = out(&check);
    let lines: Vec<&str> = lines.lines().collect();
    assert_eq!((lines.len(), check.status.code(), err(&check).as_str()), (4, Some(1), ""));
    assert_eq!(lines[0], said.trim());
    assert!(lines[1].ends_with("stdin: saves, bytes 688"));
    let refused =
        "refused 16 at polygon 1: The polygon has more than 7 portal links. Leave this polygon at most 7 portal links.";
    assert!(lines[2].ends_with(refused), "{}", lines[2]);
    let told = "; 1 point stored, 1 lies outside the box and was dropped; coordinates pushed to the border 1";
    assert!(lines[3].ends_with(told), "{}", lines[3]);
    assert_eq!(run(["check", SAMPLE]).status.code(), Some(0));
    // A file that can't be read outweighs a refusal.
    assert_eq!(run(["check", text(&short), "no such file", SAMPLE]).status.code(), Some(2));
}

#[test]
fn trouble_has_status_2_and_names_the_file() {
    let folder = folder("trouble");
    let (odd, pages) = (folder.join("odd.strip"), folder.join("odd.pages"));
    fs::write(&odd, [0; 3]).unwrap();
    let said = |arguments: &[&str]| {
        let output = run(arguments);
        assert_eq!((output.status.code(), out(&output).as_str()), (Some(2), ""), "{arguments:?}");
        err(&output)
    };
    let pages = text(&pages);
    let odd_said = format!("ynv: {}: a strip file has four bytes for each word; this one has 3\n", odd.display());
    assert_eq!(said(&["write", text(&odd), pages]), odd_said);
    assert_eq!(said(&["read", "no such file", pages]), "ynv: no such file: no such file\n");
    assert_eq!(said(&["info", text(&folder)]), format!("ynv: {}: is a directory\n", folder.display()));
    assert_eq!(said(&["read", SAMPLE, text(&folder)]), format!("ynv: {}: is a directory\n", folder.display()));
    assert!(said(&["read", SAMPLE, text(&folder.join("none/there"))]).contains("can't be written: no such file"));
    assert!(!Path::new(pages).exists());
}

#[test]
fn usage() {
    for arguments in [
        &["copy", SAMPLE, "x"][..],
        &[],
        &["read", SAMPLE],
        &["read", "a", "b", "c"],
        &["info"],
        &["pick", "1", "2"],
        &["pick", "1", "north", SAMPLE],
        &["where", "1", "nan"],
        &["info", "--loud", SAMPLE],
    ] {
        let output = run(arguments);
        assert_eq!((output.status.code(), out(&output).as_str()), (Some(2), ""), "{arguments:?}");
        assert!(err(&output).ends_with("Try `ynv --help`.\n"));
    }
    let usage = err(&run(["read", SAMPLE]));
    assert!(usage.starts_with("ynv: usage: ynv read PAGES STRIP"), "{usage}");

    for arguments in [&["--help"][..], &["check", "--help"], &["-h"]] {
        let help = run(arguments);
        assert_eq!((help.status.code(), err(&help).as_str()), (Some(0), ""));
        for verb in ["info", "check", "seams", "pick", "reach", "draw", "obj", "read", "write", "where"] {
            assert!(out(&help).contains(&format!("\n  ynv {verb} ")));
        }
    }
    let version = run(["--version"]);
    assert_eq!((out(&version).as_str(), version.status.code()), ("ynv 0.1.0\n", Some(0)));
}

#[test]
fn packed_files_are_told_apart() {
    let path = folder("packed").join("navmesh[120][120].ynv");
    fs::write(&path, b"RSC7\x02\0\0\0 and so on").unwrap();
    for verb in ["info", "check", "seams"] {
        let output = run([verb, text(&path)]);
        assert_eq!(output.status.code(), Some(2));
        let said = "this is a packed resource; unpack it first (rage-formats: `prepare_rsc7`)";
        assert_eq!(err(&output), format!("ynv: {}: {said}\n", path.display()));
    }
    assert_eq!(run(["read", text(&path), "-"]).status.code(), Some(2));
    // Pages may begin with any number: who says that they are pages has them read.
    let mut pages = fs::read(SAMPLE).unwrap();
    pages[..4].copy_from_slice(b"RSC7");
    fs::write(&path, pages).unwrap();
    assert_eq!(run(["check", "--pages", text(&path)]).status.code(), Some(0));
}

#[test]
fn a_file_is_what_its_name_its_content_or_an_option_says() {
    let folder = folder("kinds");
    let strip = fs::read(yard_strip(&folder)).unwrap();
    for (name, content, option, kind) in [
        ("plain", &strip[..], None, "strip"),
        ("plain", &fs::read(SAMPLE).unwrap()[..], None, "pages"),
        ("odd.pages", &strip[..], Some("--strip"), "strip"),
    ] {
        let path = folder.join(name);
        fs::write(&path, content).unwrap();
        let output = run(["info"].into_iter().chain(option).chain([text(&path)]));
        assert!(out(&output).contains(&format!("{name}: {kind}, bytes {}", content.len())), "{}", err(&output));
    }
    assert_eq!(run(["info", text(&folder.join("odd.pages"))]).status.code(), Some(1));
}

#[test]
fn what_is_said_of_a_cell() {
    let folder = folder("said");
    let path = yard_strip(&folder);
    let info = out(&run(["info", text(&path)]));
    for line in [
        "  area      4040: cell 40 40 of the map, navmesh[120][120].ynv",
        "  content   0x3: polygons, portals",
        "  version   0x85cb3561, vft 0x4061e7e8",
        "  box       (0, 0, 0) to (150, 150, 50), size (150, 150, 50)",
        "  polygons  2, vertices 8, edges 8, portal links 1",
        "  points    2",
        "  seams     2",
        "  areas     4040 by 4, 4041 by 2, none by 10 halves of edges",
    ] {
        assert!(info.lines().any(|said| said == line), "{line}\n{info}");
    }
    let line = |arguments: &[&str]| {
        let output = run(arguments.iter().chain([&text(&path)]));
        out(&output).trim().rsplit_once(": ").unwrap().1.to_string()
    };
    assert_eq!(line(&["seams"]), "seams 2");
    assert_eq!(line(&["pick", "20", "70"]), "polygon 0");
    assert_eq!(line(&["pick", "120.5", "70"]), "polygon 1");
    assert_eq!(line(&["pick", "150", "70"]), "no polygon");
    assert_eq!(line(&["pick", "-20", "-.5"]), "outside the box");
    let whereabouts = out(&run(["where", "-1500", "2000"]));
    assert_eq!(whereabouts, "cell 30 53, area 5330, from -1500 1950 to -1350 2100, navmesh[90][159].ynv\n");
    assert!(out(&run(["where", "1e9", "0"])).ends_with(", the nearest: the position is outside the map\n"));
}

#[test]
fn the_picture() {
    let folder = folder("picture");
    let (path, picture) = (yard_strip(&folder), folder.join("yard.svg"));
    assert_eq!(run(["draw", text(&path), text(&picture)]).status.code(), Some(0));
    let svg = fs::read_to_string(&picture).unwrap();
    assert!(svg.starts_with("<svg ") && svg.ends_with("</svg>\n"));
    assert_eq!(svg.matches("<path class=\"poly").count(), 2);
    assert!(svg.contains("<title>polygon 1\nflags 0x0000 0x00000000 0x00000000\nareas 4040, 4041\nlinks 0</title>"));
    assert!(svg.contains("area 4041, east: 1 edge<") && svg.contains("leaf 15<") && !svg.contains("class=\"number\""));
    assert!(svg.contains("<title>point 1: kind 3, angle 0, at (-5, 75, 7), outside the box: saving drops it</title>"));
    let numbered = out(&run(["draw", "--numbers", text(&path), "-"]));
    assert_eq!(numbered.matches("class=\"number\"").count(), 2);
}

#[test]
fn the_drawing() {
    let folder = folder("drawing");
    let (path, drawing) = (yard_strip(&folder), folder.join("yard.obj"));
    let output = run(["obj", text(&path), text(&drawing)]);
    let obj = fs::read_to_string(&drawing).unwrap();
    assert_eq!((output.status.code(), out(&output)), (Some(0), format!("bytes {}\n", obj.len())));
    assert_eq!(obj.matches("v ").count(), 8);
    assert!(obj.ends_with("\nf 1 2 3 4\nf 5 6 7 8\n"), "{obj}");
    // Pages give the same drawing as the strip that is read from them.
    let (pages, strip) = (folder.join("yard.pages"), folder.join("again.strip"));
    assert_eq!(run(["write", text(&path), text(&pages)]).status.code(), Some(0));
    assert_eq!(run(["read", text(&pages), text(&strip)]).status.code(), Some(0));
    let of_pages = out(&run(["obj", text(&pages), "-"]));
    assert_eq!((out(&run(["obj", text(&strip), "-"])), of_pages.lines().count()), (of_pages.clone(), 10));
}

/// Where a walker can get to is told by numbers, those in a row by the first and the last.
#[test]
fn a_walk_is_told_by_numbers() {
    let folder = folder("walk");
    let path = folder.join("walk.strip");
    let mut cell = yard();
    let floor = cell.polys[0].clone();
    cell.polys = vec![floor; 6];
    cell.polys.iter_mut().for_each(|poly| poly.edges = vec![NavEdge::NONE; 4]);
    for (from, to) in [(1, 2), (2, 3), (3, 5)] {
        cell.polys[from].edges[0] = NavEdge::neighbour(4040, to);
    }
    cell.portals.clear();
    let strip: Vec<u8> = cell.to_strip().unwrap().iter().flat_map(|word| word.to_le_bytes()).collect();
    fs::write(&path, strip).unwrap();
    let said = |start: &str| out(&run(["reach", start, text(&path)]));
    assert!(said("1").ends_with(": from polygon 1: 4 of 6 polygons: 1-3, 5\n"), "{}", said("1"));
    assert!(said("4").ends_with(": from polygon 4: 1 of 6 polygons: 4\n"), "{}", said("4"));
    let output = run(["reach", "6", text(&path)]);
    assert_eq!((output.status.code(), out(&output).as_str()), (Some(1), ""));
    assert!(err(&output).contains("refused 42: The strip has no polygon of this number"), "{}", err(&output));
    assert_eq!(run(["reach", "x", text(&path)]).status.code(), Some(2));
}

/// A polygon that has fewer than three vertices has no drawing, and its number is told.
#[test]
fn a_thin_polygon_is_not_drawn() {
    let path = folder("thin").join("thin.strip");
    let mut cell = yard();
    cell.polys[1].vertices.truncate(2);
    let strip: Vec<u8> = cell.to_strip().unwrap().iter().flat_map(|word| word.to_le_bytes()).collect();
    fs::write(&path, strip).unwrap();
    let output = run(["obj", text(&path), "-"]);
    assert_eq!((output.status.code(), out(&output).as_str()), (Some(1), ""));
    assert!(
        err(&output).contains("refused 41 at polygon 1: The polygon has fewer than 3 vertices"),
        "{}",
        err(&output)
    );
}

/// Whatever a cell's numbers are, its picture is made of numbers.
#[test]
fn any_cell_can_be_drawn() {
    let path = folder("any_cell").join("any.strip");
    for seed in 0..120 {
        fs::write(&path, bytes(&Seeded(seed).cell().to_strip().unwrap())).unwrap();
        let output = run(["draw", "--numbers", text(&path), "-"]);
        assert_eq!(output.status.code(), Some(0), "seed {seed}: {}", err(&output));
        let svg = out(&output);
        // Titles and the style may say NaN or inf; what is drawn may not.
        let drawn = svg.split('"').skip(1).step_by(2).filter(|value| value.contains("NaN") || value.contains("inf"));
        assert_eq!(drawn.count(), 0, "seed {seed}");
        assert_eq!(svg.matches("<g").count(), svg.matches("</g>").count(), "seed {seed}");
    }
}

#[cfg(unix)]
mod unix {
    use super::*;
    use std::os::unix::ffi::OsStrExt;
    use std::os::unix::fs::{symlink, PermissionsExt};

    fn shell(script: &str, arguments: &[&str]) -> Output {
        Command::new("sh").args(["-c", script, TOOL]).args(arguments).output().unwrap()
    }

    #[test]
    fn names_that_are_no_text() {
        let folder = folder("names");
        let strip = folder.join(OsStr::from_bytes(b"caf\xe9.strip"));
        let read = run([OsStr::new("read"), OsStr::new(SAMPLE), strip.as_os_str()]);
        assert_eq!((read.status.code(), fs::read(&strip).unwrap().len()), (Some(0), 60));
        assert_eq!(run([OsStr::new("check"), strip.as_os_str()]).status.code(), Some(0));
    }

    #[test]
    fn the_input_is_not_replaced_unless_asked_for() {
        let folder = folder("same");
        let strip = yard_strip(&folder);
        let (link, hard) = (folder.join("link"), folder.join("hard"));
        symlink("yard.strip", &link).unwrap();
        fs::hard_link(&strip, &hard).unwrap();
        let before = fs::read(&strip).unwrap();
        for output in [&strip, &link, &hard] {
            for verb in ["write", "draw", "obj"] {
                let refused = run([verb, text(&strip), text(output)]);
                assert_eq!(refused.status.code(), Some(2));
                assert!(err(&refused).contains("is the input"), "{}", err(&refused));
            }
        }
        assert_eq!(fs::read(&strip).unwrap(), before);
        assert_eq!(run(["write", "--same-file", text(&strip), text(&strip)]).status.code(), Some(0));
        assert_eq!(run(["check", "--pages", text(&strip)]).status.code(), Some(0));
        assert_eq!(fs::read(&hard).unwrap(), before, "the other name keeps the old file");
    }

    #[test]
    fn a_replaced_file_keeps_its_permissions_and_its_links() {
        let folder = folder("kept");
        let (file, link) = (folder.join("file"), folder.join("link"));
        fs::write(&file, "old").unwrap();
        fs::set_permissions(&file, fs::Permissions::from_mode(0o640)).unwrap();
        symlink("file", &link).unwrap();
        assert_eq!(run(["read", SAMPLE, text(&link)]).status.code(), Some(0));
        let about = fs::metadata(&file).unwrap();
        assert_eq!((about.len(), about.permissions().mode() & 0o777), (60, 0o640));
        assert!(fs::symlink_metadata(&link).unwrap().is_symlink());
        symlink("nowhere", folder.join("lost")).unwrap();
        let lost = run(["read", SAMPLE, text(&folder.join("lost"))]);
        assert!(err(&lost).ends_with("lost: is a link to nothing\n"));
    }

    /// The write fails after 512 bytes or a few more, as on a full disk: once with an error, once with the death of
    /// the program. The old file is as it was both times.
    #[test]
    fn a_failing_write_leaves_the_old_file() {
        let folder = folder("failing");
        let (strip, pages) = (yard_strip(&folder), folder.join("yard.pages"));
        fs::write(&pages, "old").unwrap();
        let limited = |trap: &str| {
            shell(&format!("{trap} ulimit -f 1; exec \"$0\" \"$@\""), &["write", text(&strip), text(&pages)])
        };
        let failed = limited("trap '' XFSZ;");
        assert_eq!(failed.status.code(), Some(2));
        assert!(err(&failed).starts_with(&format!("ynv: {}: can't be written: ", pages.display())), "{}", err(&failed));
        assert_eq!(names(&folder), ["yard.pages", "yard.strip"], "nothing is left behind");
        assert_eq!(limited("").status.code(), None, "killed by the signal");
        assert_eq!(fs::read(&pages).unwrap(), b"old");
        // What the killed one left is in nobody's way.
        assert_eq!(run(["write", text(&strip), text(&pages)]).status.code(), Some(0));
    }

    #[test]
    fn standard_output_may_fail() {
        for arguments in [&["draw", SAMPLE, "-"][..], &["info", SAMPLE], &["--help"]] {
            let full = shell("exec \"$0\" \"$@\" > /dev/full", arguments);
            assert_eq!(full.status.code(), Some(2));
            assert!(err(&full).starts_with("ynv: standard output: "), "{}", err(&full));
        }
        let nobody = shell("{ \"$0\" \"$@\"; echo \"status $?\" >&2; } | true", &["draw", SAMPLE, "-"]);
        assert!(!err(&nobody).contains("panicked"), "{}", err(&nobody));
    }

    #[test]
    fn devices_are_no_files_to_replace() {
        let refused = run(["read", SAMPLE, "/dev/null"]);
        assert_eq!(refused.status.code(), Some(2));
        assert_eq!(err(&refused), "ynv: /dev/null: is no regular file; `-` is standard output\n");
    }

    #[test]
    fn little_memory_is_an_error() {
        let folder = folder("memory");
        // A strip file of 1 GiB that is all zeros, and takes no room on the disk.
        let zeros = folder.join("zeros.strip");
        fs::File::create(&zeros).unwrap().set_len(1 << 30).unwrap();
        // A strip of 16 MB that is well formed: a million points. As a typed cell it takes as much again and more, and
        // saving it eight times as much.
        let points = folder.join("points.strip");
        let mut words = Ynv::new_cell(4040, Vec3::ZERO, Vec3::ZERO).to_strip().unwrap();
        words.truncate(14);
        words.extend([4 << 28, 0, 0, 0].repeat(1_000_000));
        words.push(5 << 28);
        fs::write(&points, bytes(&words)).unwrap();
        let limits = [25_000, 40_000, 60_000, 100_000];
        for (path, kilobytes) in limits.map(|limit| (&points, limit)).into_iter().chain([(&zeros, 500_000)]) {
            for verb in ["info", "check"] {
                let script = format!("ulimit -v {kilobytes}; exec \"$0\" \"$@\"");
                let output = shell(&script, &[verb, text(path)]);
                let code = output.status.code();
                assert!(matches!(code, Some(0..=2)), "{verb} {kilobytes}: {code:?} {}", err(&output));
                if kilobytes <= 40_000 || verb == "check" {
                    assert_eq!(code, Some(2), "{verb} {kilobytes}");
                    assert!(err(&output).contains("not enough memory"), "{}", err(&output));
                }
            }
        }
        fs::remove_dir_all(&folder).unwrap();
    }
}
