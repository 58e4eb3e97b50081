//! Plans a pocket with one island, and asks its final map what the tool's rim touches in a corner.
use pocket::{Chunk, Job, Map, Params, Point, Refusal, Shape};

fn main() -> Result<(), Refusal> {
    let pocket = Shape::new(&[[0.0, 0.0], [20.0, 0.0], [20.0, 14.0], [0.0, 14.0]]).island(&[
        [12.0, 5.0],
        [15.0, 5.0],
        [15.0, 8.0],
        [12.0, 8.0],
    ]);
    let mut params = Params::new(4.0, 0.0, -4.0, 1000.0);
    params.max_engagement_deg = 70.0;
    params.resolution = Some(0.0625);
    let plan = Job::new(params, pocket).plan()?;
    println!("{:#?}", plan.report);
    let longest = plan.chunks().filter_map(|chunk| match chunk {
        Chunk::Cut(cuts) => Some(cuts.len()),
        _ => None,
    });
    println!("the longest pass has {} points", longest.max().unwrap_or(0));
    let left = Map { grid: plan.grid, bytes: plan.map };
    let contact = left.contact(Point::new(2.0, 2.0), 2.6, 360)?;
    let (hits, samples, angle) = (contact.hits(), contact.samples(), contact.angle());
    println!("contact of a radius of 2.6 mm in a corner: {hits} of {samples} rim points, {angle}");
    Ok(())
}
