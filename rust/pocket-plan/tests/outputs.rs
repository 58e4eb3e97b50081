//! What the command writes is well formed, and says what the plan says.
use pocket::{Chunk, Contact, Cut, Log, Map};
use pocket_plan::scene::Scene;
use pocket_plan::{file, image, list, picture, words};
use std::fs;
use std::path::Path;
use std::sync::LazyLock;

fn scene(name: &str, text: &str) -> Scene {
    let job = file::parse(text).unwrap();
    let plan = job.plan().unwrap();
    Scene::new(name, job, plan).unwrap()
}

/// The small sample job, under a name that is no XML.
static SMALL: LazyLock<Scene> = LazyLock::new(|| {
    let path = Path::new(env!("CARGO_MANIFEST_DIR")).join("../../jobs/small.job");
    scene("<a & \"b\">\u{1}.job", &fs::read_to_string(path).unwrap())
});

/// The greatest hits of a cut, counted by the leaf on the map just before each point; each is the one that is listed.
fn counted(map: &mut Map, log: &mut Log, cuts: &[Cut]) -> Option<usize> {
    let p = &SMALL.job.params;
    let (r, samples) = (p.tool_diameter / 2.0, p.samples());
    let mut most = None;
    for step in cuts.windows(2) {
        let contact = map.contact(step[1].at, r + 0.25 * p.cell(), samples).unwrap();
        assert_eq!(Contact::of_angle(step[1].angle, samples), Some(contact));
        most = most.max(Some(contact.hits()));
        log.used = 0;
        map.clear_crescent(step[0].at, step[1].at, r, log).unwrap();
    }
    most
}

#[test]
fn contact_is_told_as_the_leaf_counts_it() {
    let p = &SMALL.job.params;
    let mut map = SMALL.start.clone();
    let mut log = Log::of(&map);
    let mut all = None;
    for chunk in SMALL.plan.chunks() {
        let most = match &chunk {
            Chunk::Cut(cuts) => counted(&mut map, &mut log, cuts),
            Chunk::Helix { center, radius } => {
                map.clear_disk(*center, radius + p.tool_diameter / 2.0).unwrap();
                None
            }
            Chunk::Plunge(_) | Chunk::Link(_) => None,
        };
        assert_eq!(chunk.contact(p.samples()).map(|contact| contact.hits()), most);
        all = all.max(most);
    }
    assert_eq!(map.bytes, SMALL.plan.map);
    let told = format!(": {} of {} rim points", all.unwrap(), p.samples());
    assert!(words::report(&SMALL).contains(&told), "{told}");
}

/// CRC 32 by its polynomial, a bit at a time.
fn crc(bytes: &[u8]) -> u32 {
    let mut c = u32::MAX;
    for byte in bytes {
        c ^= u32::from(*byte);
        for _ in 0..8 {
            c = if c % 2 == 1 { (c / 2) ^ 0xedb8_8320 } else { c / 2 };
        }
    }
    !c
}

fn word(bytes: &[u8]) -> usize {
    u32::from_be_bytes(bytes[..4].try_into().unwrap()) as usize
}

/// Names and data of a PNG's chunks.
fn chunks(file: &[u8]) -> Vec<(&[u8], &[u8])> {
    let mut rest = file.strip_prefix(b"\x89PNG\r\n\x1a\n").unwrap();
    let mut chunks = Vec::new();
    while !rest.is_empty() {
        let length = word(rest);
        assert_eq!(word(&rest[8 + length..]), crc(&rest[4..8 + length]) as usize);
        chunks.push((&rest[4..8], &rest[8..8 + length]));
        rest = &rest[12 + length..];
    }
    chunks
}

/// The bytes of a zlib stream of stored blocks.
fn stored(stream: &[u8]) -> Vec<u8> {
    assert_eq!((stream[0] & 15, word(&[0, 0, stream[0], stream[1]]) % 31), (8, 0));
    let (mut bytes, mut at) = (Vec::new(), 2);
    loop {
        let length = usize::from(u16::from_le_bytes([stream[at + 1], stream[at + 2]]));
        assert_eq!(length ^ 0xffff, usize::from(u16::from_le_bytes([stream[at + 3], stream[at + 4]])));
        bytes.extend(&stream[at + 5..at + 5 + length]);
        let last = stream[at] == 1;
        assert!(stream[at] <= 1);
        at += 5 + length;
        if last {
            break;
        }
    }
    let sum =
        bytes.iter().fold((1u64, 0u64), |(a, b), byte| (a + u64::from(*byte), b + a + u64::from(*byte)));
    assert_eq!(word(&stream[at..]) as u64, sum.1 % 65_521 * 65_536 + sum.0 % 65_521);
    assert_eq!(stream.len(), at + 4);
    bytes
}

/// The pixels that the final map asks for, from the top.
fn pixels(scene: &Scene) -> Vec<Vec<u8>> {
    let grid = scene.plan.grid;
    let pixel = |i: usize, j: usize| if scene.plan.map[j * grid.nx + i] == 1 { 0 } else { 255 };
    (0..grid.ny).rev().map(|j| (0..grid.nx).map(|i| pixel(i, j)).collect()).collect()
}

#[test]
fn the_map_as_png() {
    let png = image::png(&SMALL);
    let chunks = chunks(&png);
    let names: Vec<&[u8]> = chunks.iter().map(|c| c.0).collect();
    assert_eq!(names, [b"IHDR", b"IDAT", b"IEND"]);
    let (grid, header) = (SMALL.plan.grid, chunks[0].1);
    assert_eq!((word(header), word(&header[4..]), &header[8..]), (grid.nx, grid.ny, &[8, 0, 0, 0, 0][..]));
    let bytes = stored(chunks[1].1);
    let rows: Vec<Vec<u8>> = bytes.chunks(grid.nx + 1).map(|row| row[1..].to_vec()).collect();
    assert!(bytes.chunks(grid.nx + 1).all(|row| row[0] == 0));
    assert_eq!(rows, pixels(&SMALL));
}

#[test]
fn the_map_as_pgm() {
    let grid = SMALL.plan.grid;
    let header = format!("P5\n{} {}\n255\n", grid.nx, grid.ny);
    assert_eq!(image::pgm(&SMALL), [header.as_bytes(), &pixels(&SMALL).concat()].concat());
}

#[test]
fn the_list_gives_rows_and_triples_back() {
    let text = list::list(&SMALL);
    let mut lines = text.lines();
    assert_eq!(lines.next(), Some("row\tkind\tx\ty\tvalue"));
    let (mut rows, mut triples): (Vec<[u32; 3]>, Vec<[f64; 3]>) = (Vec::new(), Vec::new());
    for line in lines {
        let fields: Vec<&str> = line.split('\t').collect();
        let [row, kind, x, y, value] = fields[..] else { panic!("{line}") };
        let kind = ["helix", "plunge", "link", "cut"].iter().position(|k| *k == kind).unwrap() as u32 + 1;
        if row.parse::<usize>().unwrap() == rows.len() {
            rows.push([kind, triples.len() as u32, 0]);
        }
        let last = rows.last_mut().unwrap();
        assert_eq!(last[0], kind);
        last[2] += 1;
        triples.push([x, y, value].map(|v| v.parse().unwrap()));
    }
    assert_eq!((&rows, &triples), (&SMALL.plan.rows, &SMALL.plan.triples));
}

/// The tags of an XML text, each closed in turn; how many there are of each name.
fn tags(xml: &str) -> Vec<String> {
    let (mut open, mut names) = (Vec::new(), Vec::new());
    let mut rest = xml;
    while let Some(start) = rest.find('<') {
        let between = &rest[..start];
        assert!(!between.contains('>'));
        entities(between);
        let end = start + rest[start..].find('>').unwrap();
        let tag = &rest[start + 1..end];
        rest = &rest[end + 1..];
        if let Some(name) = tag.strip_prefix('/') {
            assert_eq!(open.pop().as_deref(), Some(name));
            continue;
        }
        let name = tag.split([' ', '/']).next().unwrap().to_string();
        attributes(tag.trim_end_matches('/').strip_prefix(name.as_str()).unwrap());
        if !tag.ends_with('/') {
            open.push(name.clone());
        }
        names.push(name);
    }
    assert!(open.is_empty() && rest.trim().is_empty(), "{open:?}");
    names
}

/// Each `&` begins one of the entities that are written; nothing is there that XML has no place for.
fn entities(text: &str) {
    for (at, _) in text.match_indices('&') {
        assert!(["&amp;", "&lt;", "&gt;", "&quot;"].iter().any(|e| text[at..].starts_with(e)), "{text}");
    }
    assert!(text.chars().all(|c| c == '\n' || !c.is_control()));
}

/// `name="value"`, parted by blanks.
fn attributes(text: &str) {
    let mut rest = text.trim();
    while !rest.is_empty() {
        let (name, after) = rest.split_once("=\"").unwrap_or_else(|| panic!("{text}"));
        assert!(name.chars().all(|c| c.is_ascii_alphanumeric() || c == '-'), "{text}");
        let (value, after) = after.split_once('"').unwrap();
        entities(value);
        rest = after.trim_start();
    }
}

#[test]
fn the_picture_is_well_formed() {
    let svg = picture::svg(&SMALL);
    let tags = tags(&svg);
    let many = |name: &str| tags.iter().filter(|tag| *tag == name).count();
    assert_eq!((many("svg"), many("style"), many("pattern")), (1, 1, 1));
    // A path for each colour of the scale that is used, and all other parts.
    assert!(many("path") > 20 && many("text") > 20 && many("circle") >= 4);
    for part in
        ["&lt;a &amp; &quot;b&quot;&gt;..job: tool 4 mm, contact at most 80\u{b0}", "x (mm)", "y (mm)"]
    {
        assert!(svg.contains(part), "{part}");
    }
    assert!(!svg.contains("NaN") && !svg.contains("inf"));
}

#[test]
fn the_picture_shows_each_part() {
    let svg = picture::svg(&SMALL);
    let count = |class: &str| svg.matches(&format!("class=\"{class}\"")).count();
    let (r, legend) = (&SMALL.plan.report, 1);
    assert_eq!(count("helix"), r.helix_entries + legend);
    assert!(svg.contains(&words::rim_points(&SMALL).unwrap()));
    assert_eq!(count("disk"), r.helix_entries + legend);
    assert_eq!(count("plunge"), r.retracts + legend);
    assert_eq!(count("island"), SMALL.pocket.islands.len() + legend);
    assert_eq!((count("wall"), count("stock"), count("left"), count("link")), (2, 2, 2, 2));
    let passes = count("pass") - legend;
    assert!((2..=9).contains(&passes), "{passes}");
}

/// Each island of a region is hidden by a path of its own, so that the overlap of two is; the pocket's are shown as far as
/// its outer loop.
#[test]
fn the_picture_of_overlapping_islands() {
    let text = "diameter 4\nresolution 0.06\nengagement 80\npocket 4 4 4 4\nstock 1\nregion 3 3 3\nverts 25\n\
        0 0\n14 0\n14 10\n0 10\n9 5\n11 5\n11 7\n9 7\n10 6\n12 6\n12 8\n10 8\n13 9\n15 9\n15 11\n13 11\n\
        0 0\n14 0\n0 10\n1 1\n3 1\n1 3\n2 1\n4 1\n2 3\n";
    let svg = picture::svg(&scene("boss.job", text));
    tags(&svg);
    let between = |from: &str, to: &str| {
        let (_, rest) = svg.split_once(from).unwrap_or_else(|| panic!("no {from}"));
        rest.split_once(to).unwrap_or_else(|| panic!("no {to}")).0.to_string()
    };
    let loops = |part: &str| part.matches("z\"/>").count();
    let mask = between("<mask id=\"stock0\"", "</mask>");
    assert_eq!((loops(&mask), mask.matches('z').count()), (2, 2));
    let stock = between("mask=\"url(#stock0)\" d=\"", "\"/>");
    assert_eq!(stock.matches('z').count(), 1);
    let islands = between("<path class=\"left\"", "<path class=\"wall\"");
    let (_, clipped) = islands.split_once("<g clip-path=\"url(#pocket)\">").unwrap();
    let (edges, fills) = clipped.split_at(clipped.find("class=\"island\"").unwrap());
    assert_eq!((edges.matches("class=\"edge\"").count(), fills.matches("class=\"island\"").count()), (3, 3));
    assert_eq!(loops(clipped), 6);
}

#[test]
fn pictures_of_little() {
    // Three equal vertices, an empty stock list, and a pocket far from zero.
    for text in [
        "pocket 3\nverts 3\n1 1\n1 1\n1 1\n",
        "stock 0\nresolution 0.1\npocket 3\nverts 3\n0 0\n9 0\n0 9\n",
        "diameter 0.1\nstep_down 1\nresolution 0.0016\nengagement 90\npocket 4\nverts 4\n9999.8 -9999.8\n10000 -9999.8\n10000 -9999.6\n9999.8 -9999.6\n",
    ] {
        let scene = scene("little.job", text);
        let svg = picture::svg(&scene);
        tags(&svg);
        assert!(!svg.contains("NaN") && !svg.contains("inf"));
        chunks(&image::png(&scene));
    }
}
