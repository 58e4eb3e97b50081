//! The final stock map as an image: a pixel a cell, stock black, the highest row on top.
use crate::scene::Scene;

const STOCK: u8 = 0;
const NONE: u8 = 255;

/// Rows of pixels from the top.
fn rows(scene: &Scene) -> impl Iterator<Item = Vec<u8>> {
    let pixel = |byte: &u8| if *byte == 1 { STOCK } else { NONE };
    scene.plan.map.chunks(scene.plan.grid.nx).rev().map(move |row| row.iter().map(pixel).collect())
}

pub fn pgm(scene: &Scene) -> Vec<u8> {
    let grid = &scene.plan.grid;
    let mut file = format!("P5\n{} {}\n255\n", grid.nx, grid.ny).into_bytes();
    rows(scene).for_each(|row| file.extend(row));
    file
}

pub fn png(scene: &Scene) -> Vec<u8> {
    let grid = &scene.plan.grid;
    let mut header = Vec::new();
    header.extend((grid.nx as u32).to_be_bytes());
    header.extend((grid.ny as u32).to_be_bytes());
    // 8 bits of grey, the usual compression and filters, rows in order.
    header.extend([8, 0, 0, 0, 0]);
    // A row begins with its filter: 0, none.
    let pixels: Vec<u8> = rows(scene).flat_map(|row| std::iter::once(0).chain(row)).collect();
    let mut file = b"\x89PNG\r\n\x1a\n".to_vec();
    chunk(&mut file, b"IHDR", &header);
    chunk(&mut file, b"IDAT", &zlib(&pixels));
    chunk(&mut file, b"IEND", &[]);
    file
}

fn chunk(file: &mut Vec<u8>, name: &[u8; 4], data: &[u8]) {
    file.extend((data.len() as u32).to_be_bytes());
    let start = file.len();
    file.extend(name);
    file.extend(data);
    let crc = crc32(&file[start..]);
    file.extend(crc.to_be_bytes());
}

/// Stored blocks: nothing is compressed.
fn zlib(data: &[u8]) -> Vec<u8> {
    let mut out = vec![0x78, 0x01];
    let mut blocks = data.chunks(0xffff).peekable();
    while let Some(block) = blocks.next() {
        let length = block.len() as u16;
        out.push(u8::from(blocks.peek().is_none()));
        out.extend(length.to_le_bytes());
        out.extend((!length).to_le_bytes());
        out.extend(block);
    }
    out.extend(adler32(data).to_be_bytes());
    out
}

fn adler32(data: &[u8]) -> u32 {
    let (a, b) = data.iter().fold((1u32, 0u32), |(a, b), byte| {
        let a = (a + u32::from(*byte)) % 65_521;
        (a, (b + a) % 65_521)
    });
    b << 16 | a
}

fn crc32(data: &[u8]) -> u32 {
    let table: [u32; 256] = std::array::from_fn(|k| {
        (0..8).fold(k as u32, |c, _| if c & 1 == 1 { c >> 1 ^ 0xedb8_8320 } else { c >> 1 })
    });
    !data.iter().fold(!0, |c, byte| c >> 8 ^ table[((c ^ u32::from(*byte)) & 0xff) as usize])
}
