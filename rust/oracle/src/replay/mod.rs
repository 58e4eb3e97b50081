//! Replay of a plan (document 01, "Replay, for demand 3"), written apart from the planner: it is fed
//! the job, rows and triples, and in a second walk the events. It shares with the planner only the
//! job format, vectors, and sine and cosine.
mod distance;
mod world;

use crate::hooks::{Event, Happened};
use crate::job::Job;
use crate::run::{Outcome, Plan, fingerprint};
use crate::vec2::{Vec2, v2};
pub use distance::squared_distances;
pub use world::World;

/// What is wrong with an accepted plan; nothing for a refused job.
pub fn faults(job: &Job, outcome: &Outcome) -> Vec<String> {
    let Ok(plan) = &outcome.answer else { return Vec::new() };
    let mut bad = rows(job, plan);
    if bad.is_empty() {
        bad = events(job, plan, &outcome.events);
    }
    bad
}

fn same(a: &[f64; 3], b: &[f64; 3]) -> bool {
    (0..3).all(|k| a[k].to_bits() == b[k].to_bits())
}

fn point(t: &[f64; 3]) -> Vec2 {
    v2(t[0], t[1])
}

/// Kind and triples of each row.
type Parts<'a> = Vec<(u32, &'a [[f64; 3]])>;

/// The plan's rows, if they list all triples in order and each kind has its count.
fn parts(plan: &Plan) -> Result<Parts<'_>, String> {
    let mut out = Vec::new();
    let mut next = 0usize;
    for (n, &[kind, first, count]) in plan.rows.iter().enumerate() {
        let one = (1..=3).contains(&kind) && count == 1;
        if !(one || kind == 4 && count >= 1) || first as usize != next {
            return Err(format!("row {n}: {kind} {first} {count}"));
        }
        next += count as usize;
        let part = plan.triples.get(first as usize..next).ok_or(format!("row {n}: beyond the triples"))?;
        out.push((kind, part));
    }
    if next != plan.triples.len() {
        return Err(format!("triples beyond the last row: {}", plan.triples.len() - next));
    }
    Ok(out)
}

/// Every rule of term 3 for the rows, and the report's counts.
pub fn rows(job: &Job, plan: &Plan) -> Vec<String> {
    let parts = match parts(plan) {
        Ok(parts) => parts,
        Err(fault) => return vec![fault],
    };
    let mut bad = Vec::new();
    let mut w = World::new(job);
    if w.stock() != plan.report.starting_cells {
        bad.push(format!("starting cells {}, not {}", plan.report.starting_cells, w.stock()));
    }
    let mut at: Option<Vec2> = None;
    let mut way = false;
    for (n, (kind, t)) in parts.iter().enumerate() {
        let name = format!("row {n}");
        let q = point(&t[0]);
        match kind {
            1 => {
                let radius = t[0][2];
                w.check_helix(q, radius, &name, &mut bad);
                let cells = w.disk(q, radius + w.r);
                w.clear(&cells);
                at = Some(q + v2(radius, 0.0));
            }
            2 => {
                w.check_plunge(q, &name, &mut bad);
                at = Some(q);
            }
            3 => {
                w.check_link(at, q, &name, &mut bad);
                at = Some(q);
            }
            _ => {
                // The way to a pass ends where it begins.
                if !way
                    || !at.is_some_and(|p| p.x.to_bits() == q.x.to_bits() && p.y.to_bits() == q.y.to_bits())
                {
                    bad.push(format!("{name}: cut begins elsewhere than the way to it ended"));
                }
                w.cut(t, &name, &mut bad);
                at = t.last().map(point);
            }
        }
        way = matches!(kind, 2 | 3);
    }
    if way {
        bad.push("a way without a cut".into());
    }
    check_end(&w, plan, &parts, &mut bad);
    bad
}

/// Map and report at the end.
fn check_end(w: &World, plan: &Plan, parts: &Parts, bad: &mut Vec<String>) {
    let r = &plan.report;
    if (plan.nx, plan.ny) != (w.nx, w.ny) || plan.map != w.map {
        bad.push("the map handed back is not the replay's".into());
    }
    if r.standing_cells != w.stock() {
        bad.push(format!("standing cells {}, not {}", r.standing_cells, w.stock()));
    }
    let listed = |kind| parts.iter().filter(|(k, _)| *k == kind).count();
    for (name, kind, count) in [
        ("helix entries", 1, r.helix_entries),
        ("retracts", 2, r.retracts),
        ("links", 3, r.links),
        ("passes", 4, r.passes),
    ] {
        if count != listed(kind) {
            bad.push(format!("{name} {count}, not {}", listed(kind)));
        }
    }
    let cuts = parts.iter().filter(|(k, _)| *k == 4);
    let greatest = cuts.flat_map(|(_, t)| &t[1..]).fold(0.0, |m: f64, t| m.max(t[2]));
    if r.planned_max_engagement_deg.to_bits() != greatest.to_degrees().to_bits() {
        bad.push("the greatest engagement is not the greatest listed".into());
    }
}

/// Term 3 for every beginning of the list of events: the planner's map as each event left it is the
/// replay's, a tried pass keeps the rules of a cut and removes what it says, and the events list the
/// plan's rows.
pub fn events(job: &Job, plan: &Plan, events: &[Happened]) -> Vec<String> {
    let parts = match parts(plan) {
        Ok(parts) => parts,
        Err(fault) => return vec![fault],
    };
    let mut bad = Vec::new();
    let mut w = World::new(job);
    let mut at: Option<Vec2> = None;
    let mut trial: Option<(Vec<[f64; 3]>, Vec<usize>)> = None;
    let mut listed = 0usize;
    for (n, Happened { event, map }) in events.iter().enumerate() {
        let name = format!("event {n}");
        // The row that the event adds, if it adds one.
        let mut row: Option<(u32, Vec<[f64; 3]>)> = None;
        match event {
            Event::Tried { points, removed } => {
                if trial.is_some() {
                    bad.push(format!("{name}: two passes on trial"));
                }
                let t: Vec<[f64; 3]> = points.iter().map(|(q, e)| [q.x, q.y, *e]).collect();
                let cleared = w.cut(&t, &name, &mut bad);
                if cleared.len() != *removed {
                    bad.push(format!("{name}: removed {removed}, not {}", cleared.len()));
                }
                trial = Some((t, cleared));
            }
            Event::Withdrawn | Event::Kept => match trial.take() {
                None => bad.push(format!("{name}: no pass on trial")),
                Some((_, cleared)) if *event == Event::Withdrawn => w.restore(&cleared),
                Some((t, _)) => {
                    at = t.last().map(point);
                    row = Some((4, t));
                }
            },
            Event::Link { to } | Event::Plunge { at: to } | Event::RefusedLink { to } => {
                // Judged on the map before the pass on trial clears anything.
                let cleared = trial.as_ref().map_or(&[][..], |(_, cleared)| cleared);
                w.restore(cleared);
                if fingerprint(&w.map) != *map {
                    bad.push(format!("{name}: the way is not judged on the map before the pass"));
                }
                let kind = match event {
                    Event::Link { .. } => 3,
                    Event::Plunge { .. } => 2,
                    _ => 0,
                };
                match kind {
                    3 => w.check_link(at, *to, &name, &mut bad),
                    2 => w.check_plunge(*to, &name, &mut bad),
                    _ if at.is_some_and(|p| w.link_clear(p, *to)) => {
                        bad.push(format!("{name}: refused, though the straight link is clear"))
                    }
                    _ => {}
                }
                w.clear(cleared);
                if kind != 0 {
                    row = Some((kind, vec![[to.x, to.y, 0.0]]));
                    at = Some(*to);
                }
            }
            Event::Helix { center, radius } => {
                w.check_helix(*center, *radius, &name, &mut bad);
                let cells = w.disk(*center, radius + w.r);
                w.clear(&cells);
                at = Some(*center + v2(*radius, 0.0));
                row = Some((1, vec![[center.x, center.y, *radius]]));
            }
            Event::HelixGivenUp { .. } => {}
        }
        let on_the_way =
            matches!(event, Event::Link { .. } | Event::Plunge { .. } | Event::RefusedLink { .. });
        if !on_the_way && fingerprint(&w.map) != *map {
            bad.push(format!("{name}: the map is not the replay's"));
        }
        if let Some((kind, t)) = row {
            let listed_here = parts.get(listed).is_some_and(|(k, l)| {
                *k == kind && l.len() == t.len() && l.iter().zip(&t).all(|(a, b)| same(a, b))
            });
            if !listed_here {
                bad.push(format!("{name}: is not row {listed}"));
            }
            listed += 1;
        }
    }
    if listed != parts.len() || trial.is_some() || w.map != plan.map {
        bad.push("the events do not end at the plan".into());
    }
    bad
}
