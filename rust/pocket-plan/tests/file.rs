//! Job files: what they say, and where each kind of mistake is found.
use pocket::{Lent, Params, RawJob};
use pocket_plan::file::{parse, parse_bytes};

/// Line, column, what was expected and what was found.
fn mistake(text: &str) -> (usize, usize, String, String) {
    let m = parse(text).expect_err(text);
    (m.line, m.column, m.expected, m.found)
}

fn is(text: &str, line: usize, column: usize, expected: &str, found: &str) {
    assert_eq!(mistake(text), (line, column, expected.into(), found.into()), "{text:?}");
}

const SQUARE: &str = "pocket 4\nverts 4\n0 0\n9 0\n9 9\n0 9\n";

fn job(lines: &str) -> RawJob {
    parse(&format!("{lines}\n{SQUARE}")).unwrap()
}

#[test]
fn what_is_absent_has_its_default() {
    let mut raw = RawJob::new(Params::default());
    raw.vertices = vec![0.0, 0.0, 9.0, 0.0, 9.0, 9.0, 0.0, 9.0];
    (raw.lengths, raw.regions) = (vec![4], vec![1]);
    assert_eq!(job(""), raw);
    assert_eq!(job("stock none"), raw);
    let p = job("").params;
    assert_eq!((p.tool_diameter, p.max_engagement_deg, p.step_down), (6.0, 40.0, 6.0));
    assert_eq!((p.top, p.bottom, p.stock_to_leave, p.safe_z), (0.0, -6.0, 0.0, 5.0));
    assert_eq!((p.feed, p.plunge_feed, p.link_feed, p.helix_ramp_deg), (1000.0, 300.0, 1000.0, 2.0));
    assert_eq!((p.helix_radius, p.chip_thinning_max, p.resolution), (None, None, None));
    assert!(p.keep_tool_down);
}

#[test]
fn every_name_sets_its_value() {
    let numbers = "diameter 1\nengagement 2\nstep_down 3\ntop 4\nbottom 5\nleave 6\nsafe_z 7\nfeed 8\nplunge_feed 9\n\
        link_feed 10\nramp 11\nhelix 12\nchip 13\nresolution 14\nkeep_down 0";
    let p = Params {
        tool_diameter: 1.0,
        max_engagement_deg: 2.0,
        step_down: 3.0,
        top: 4.0,
        bottom: 5.0,
        stock_to_leave: 6.0,
        safe_z: 7.0,
        feed: 8.0,
        plunge_feed: 9.0,
        link_feed: 10.0,
        helix_ramp_deg: 11.0,
        helix_radius: Some(12.0),
        chip_thinning_max: Some(13.0),
        resolution: Some(14.0),
        keep_tool_down: false,
    };
    assert_eq!(job(numbers).params, p);
    let lent = job("lent_bytes 1\nlent_u32 2\nlent_f32 3\nlent_f64 4\nlent_rows 5\nlent_triples 6").lent;
    let (bytes, words, singles, doubles) = (Some(1), Some(2), Some(3), Some(4));
    assert_eq!(lent, Lent { bytes, words, singles, doubles, rows: Some(5), triples: Some(6) });
}

#[test]
fn numbers_are_decimals_or_bits() {
    let diameter = |word: &str| job(&format!("diameter {word}")).params.tool_diameter;
    assert_eq!(diameter("-1.5e-3"), -0.0015);
    assert_eq!(diameter("+.5"), 0.5);
    assert_eq!(diameter("4018000000000000"), 6.0);
    assert_eq!(diameter("bff0000000000000"), -1.0);
    assert_eq!(diameter("inf"), f64::INFINITY);
    assert!(diameter("nan").is_nan());
    assert_eq!(job("helix none").params.helix_radius, None);
}

#[test]
fn comments_blanks_and_line_ends() {
    let text = "\u{feff}# a job\r\n\r\n  diameter\t4 # mm\r\npocket 3 # one loop\r\n\r\nverts 3#three\r\n# first\r\n0 0 # here\r\n \r\n1 0\r\n0 1";
    let raw = parse(text).unwrap();
    assert_eq!((raw.params.tool_diameter, raw.lengths.len()), (4.0, 1));
    assert_eq!(raw.vertices, [0.0, 0.0, 1.0, 0.0, 0.0, 1.0]);
}

#[test]
fn stock_regions_follow_the_pocket_in_any_order_of_lines() {
    let verts = "verts 3\n0 0\n1 0\n0 1\n";
    let raw = parse(&format!("{verts}stock 2\nregion 3 4\n# more\nregion\npocket 5 6\n")).unwrap();
    assert_eq!((raw.whole, raw.lengths, raw.regions), (false, vec![5, 6, 3, 4], vec![2, 2, 0]));
    let raw = parse(&format!("stock 0\npocket\n{verts}")).unwrap();
    assert_eq!((raw.whole, raw.lengths, raw.regions), (false, vec![], vec![0]));
}

#[test]
fn wrong_values() {
    is("diameter 6x\n", 1, 10, "a number", "`6x`");
    is("diameter\n", 1, 9, "a number", "the end of the line");
    is("diameter # 6\n", 1, 9, "a number", "the end of the line");
    is("  diameter 6 7\n", 1, 14, "the end of the line", "`7`");
    is("top 0\n\n# c\nfeed 1,000\n", 4, 6, "a number", "`1,000`");
    is("helix non\n", 1, 7, "a number or `none`", "`non`");
    is("keep_down yes\n", 1, 11, "0 or 1", "`yes`");
    is("keep_down\n", 1, 10, "0 or 1", "the end of the line");
    is("lent_rows -1\n", 1, 11, "a whole number of 0 or more", "`-1`");
    is("lent_u32 99999999999999999999\n", 1, 10, "a whole number of 0 or more", "`99999999999999999999`");
    is("pocket 4 x\n", 1, 10, "a whole number of 0 to 4294967295", "`x`");
    is("pocket 4294967296\n", 1, 8, "a whole number of 0 to 4294967295", "`4294967296`");
}

#[test]
fn wrong_names() {
    is("engagment 5\n", 1, 1, "a name of docs/JOBS.md (`engagement`?)", "`engagment`");
    is("top 1\n  foo 5\n", 2, 3, "a name of docs/JOBS.md", "`foo`");
    is("Diameter 5\n", 1, 1, "a name of docs/JOBS.md (`diameter`?)", "`Diameter`");
    is("top 1\ntop 2\n", 2, 1, "each name once", "`top` again, first on line 1");
    is("region 3\n", 1, 1, "a line `stock` with the number of its regions first", "`region`");
    is(&format!("{SQUARE}5 5\n"), 7, 1, "no vertex after the 4 of `verts`", "`5`");
}

#[test]
fn wrong_stock() {
    is("stock\n", 1, 6, "`none`, or a whole number of 0 or more", "the end of the line");
    is("stock all\n", 1, 7, "`none`, or a whole number of 0 or more", "`all`");
    is("stock 2\nregion 3\nverts 0\n", 3, 1, "a line `region` (2 of 2)", "`verts`");
    is("stock 2\nregion 3", 2, 9, "a line `region` (2 of 2)", "the end of the file");
    is("stock 99999999999\n", 1, 18, "a line `region` (1 of 99999999999)", "the end of the file");
}

#[test]
fn wrong_vertices() {
    is("verts 2\n0 0\n1\n", 3, 2, "y of vertex 2 of 2, a number", "the end of the line");
    is("verts 2\n0 0\nx 1\n", 3, 1, "x of vertex 2 of 2, a number", "`x`");
    is("verts 2\n0 0,1\n", 2, 3, "y of vertex 1 of 2, a number", "`0,1`");
    is("verts 1\n0 0 0\n", 2, 5, "the end of the line", "`0`");
    is("verts 99999999999\n0 0\n", 2, 4, "x and y of vertex 2 of 99999999999", "the end of the file");
}

#[test]
fn what_a_job_cannot_do_without() {
    is("", 1, 1, "a line `pocket`", "the end of the file");
    is("# only this\n\n", 2, 1, "a line `pocket`", "the end of the file");
    is("pocket 4\n", 1, 9, "a line `verts`", "the end of the file");
}

#[test]
fn columns_count_characters() {
    is("top 1 # \u{e9}\n\u{3000}\u{e9}\u{e9} 5\n", 2, 2, "a name of docs/JOBS.md", "`\u{e9}\u{e9}`");
}

#[test]
fn bytes_that_are_no_text() {
    let m = parse_bytes(b"top 1\n  \xc3\xa9 \xff 5\nfeed 2\n").unwrap_err();
    assert_eq!((m.line, m.column), (2, 5));
    assert_eq!((m.expected.as_str(), m.found.as_str()), ("text in UTF-8", "the byte 0xff"));
    let m = parse_bytes(b"\x80").unwrap_err();
    assert_eq!((m.line, m.column), (1, 1));
}

#[test]
fn a_mistake_is_shown_with_its_line() {
    let m = parse("top 1\n\tdiameter six\n").unwrap_err();
    let shown = m.under("a.job").to_string();
    assert_eq!(shown, "a.job:2:11: expected a number, found `six`\n  2 |  diameter six\n    |           ^");
}

#[test]
fn a_long_line_is_shown_in_part_and_what_does_not_print_is_a_dot() {
    let text = format!("pocket {} \u{1b}[2J", "3 ".repeat(5000));
    let m = parse(&text).unwrap_err();
    let shown = m.under("a.job").to_string();
    assert!(shown.len() < 400, "{shown}");
    assert!(shown.contains("found `.[2J`") && !shown.contains('\u{1b}'));
    let lines: Vec<&str> = shown.lines().collect();
    let caret = lines[2].find('^').unwrap();
    assert_eq!(&lines[1][caret..], ".[2J");
    let m = parse(&"x".repeat(100_000)).unwrap_err();
    assert!(m.under("a.job").to_string().len() < 400);
}

#[test]
fn damaged_files_are_told_and_nothing_else() {
    let text = "diameter 6 # mm\nengagement 60\nhelix none\nkeep_down 1\npocket 4 3\nstock 1\nregion 4\nverts 11\n\
        0 0\n9 0\n9 9\n0 9\n1 1\n2 1\n1 2\n-1 -1\n5 -1\n5 10\n-1 10\n";
    assert!(parse(text).is_ok());
    for at in 0..text.len() {
        for byte in [b'\n', b' ', b'#', b'-', b'9', b'x', 0, 0x7f, 0xff] {
            let mut bytes = text.as_bytes().to_vec();
            bytes[at] = byte;
            if let Err(m) = parse_bytes(&bytes) {
                let lines = String::from_utf8_lossy(&bytes).lines().count();
                assert!((1..=lines).contains(&m.line) && m.column <= m.text.chars().count() + 1, "{m:?}");
                assert!(m.under("a").to_string().lines().count() == 3);
            }
            bytes.remove(at);
            let _ = parse_bytes(&bytes);
        }
        let _ = parse(&text[..at]);
    }
}
