//! adaptive.rs: parameters, planner and report. The derived file has no toolpath; it computes what the
//! print computes, in the same order. What it gains stands in ../src/hooks.rs.
use crate::derive::{Edit, omit, publish, replace};

const LEFT_OUT: &str = "left out by document 01";
const TIME: &str = "time spent, by phase";
const REFUSED: &str = "questions 16 and 17 end planning";

pub const EDITS: &[Edit] = &[
    replace(33, "`include!` takes no inner doc comment", "//!", "//"),
    // Left out by document 01: toolpath emission, simplify, measure_engagement, chip thinning,
    // engagement_for_stepover.
    omit(LEFT_OUT, "    /// The engagement angle (degrees) of a straight cut", "    fn validate(&self)"),
    omit(LEFT_OUT, "/// Removes points that lie within `tol`", "/// Plans adaptive clearing of `region`"),
    omit(LEFT_OUT, "    let levels: Vec<f64>", "    let mut report = AdaptiveReport {"),
    omit(LEFT_OUT, "    let feed_for = |e: f64|", "    Ok(AdaptiveResult {"),
    omit(LEFT_OUT, "\n/// Engagement measured along a finished tool path.", ""),
    replace(1, LEFT_OUT, "use crate::tool::chip_thinning_factor;\n", ""),
    replace(1, LEFT_OUT, "use crate::toolpath::{MoveKind, Toolpath};\n", ""),
    // Leaves not printed: vectors, the house cosine, the order of equal estimates.
    replace(
        1,
        "vectors and the house cosine, by document 01",
        "use anvil_kernel::{Vec2, Vec3, v2, v3};\n",
        "use crate::circle::cos;\nuse crate::hooks::{Event, Hooks, join, lower_first, timed};\nuse crate::order::Places;\nuse crate::vec2::{Vec2, v2};\n",
    ),
    replace(3, "house cosine", "self.target.cos()", "cos(self.target)"),
    replace(1, "house cosine", "(PI * s / len).cos()", "cos(PI * s / len)"),
    replace(0, "no other cosine", ".cos()", ""),
    replace(0, "no other sine", ".sin()", ""),
    replace(
        1,
        "on equal estimates the lower node number",
        "        self.f.total_cmp(&o.f)\n",
        "        self.f.total_cmp(&o.f).then_with(|| lower_first(self.id, o.id))\n",
    ),
    replace(1, "may be switched to a known mistake", "next.insert(a, b);", "join(&mut next, a, b);"),
    // `Places::next_piece` in ../src/order.rs is this choice, or the changed order's.
    replace(
        1,
        "of equally near pieces the earlier, or by the switch the longer",
        ".min_by(|a, b| a.1.total_cmp(&b.1))",
        ".next_piece(&pieces, self.hooks)",
    ),
    // No registry crates.
    replace(1, "no serde", "use serde::{Deserialize, Serialize};\n", ""),
    replace(2, "no serde", ", Serialize, Deserialize)]", ")]"),
    // The result: chunks and map instead of a toolpath, and the report's added fields.
    replace(
        1,
        "`Grid` has no equality",
        "#[derive(Clone, Debug, PartialEq)]\npub struct AdaptiveResult {",
        "#[derive(Clone, Debug)]\npub struct AdaptiveResult {",
    ),
    replace(
        1,
        "the plan itself",
        "    pub toolpath: Toolpath,\n",
        "    pub chunks: Vec<Chunk>,\n    pub map: Grid,\n",
    ),
    replace(
        1,
        "the plan itself",
        "Ok(AdaptiveResult { toolpath: tp, report })",
        "Ok(AdaptiveResult { chunks: planner.chunks, map: planner.m, report })",
    ),
    replace(
        1,
        "added report fields",
        "    pub warnings: Vec<String>,\n",
        r"    pub warnings: Vec<String>,
    pub starting_cells: usize,
    pub standing_cells: usize,
    pub helix_given_up: usize,
    pub spent_budget: bool,
    pub left_reachable: bool,
",
    ),
    replace(
        1,
        "added report fields",
        "        warnings: planner.warnings.clone(),\n",
        r"        warnings: planner.warnings.clone(),
        starting_cells,
        standing_cells: planner.m.count(),
        helix_given_up: planner.hooks.given_up,
        spent_budget: planner.hooks.spent,
",
    ),
    replace(
        1,
        "added report fields",
        "    let initial = planner.m.count()",
        "    let starting_cells = planner.m.count();\n    let initial = planner.m.count()",
    ),
    replace(
        1,
        "added report fields",
        "    if remaining_reachable > 0.05 * initial.max(1e-9) {\n",
        "    if remaining_reachable > 0.05 * initial.max(1e-9) {\n        report.left_reachable = true;\n",
    ),
    replace(
        1,
        "added report fields",
        "some material was left\".into());\n",
        "some material was left\".into());\n                self.hooks.spent = true;\n",
    ),
    // The hooks: a field of the planner, lent to it.
    replace(
        1,
        "hooks",
        "    all_dirty: bool,\n}",
        "    all_dirty: bool,\n    /// Not printed: the sizes lent, and a record of what happens.\n    pub hooks: &'a mut Hooks,\n}",
    ),
    replace(
        1,
        "hooks",
        "            all_dirty: true,\n        })",
        "            all_dirty: true,\n            hooks,\n        })",
    ),
    replace(
        1,
        "hooks",
        "    fn new(region: &'a Region, stock: Option<&[Region]>, p: &AdaptiveParams) -> Result<Planner<'a>> {",
        r"    pub fn new(
        region: &'a Region,
        stock: Option<&[Region]>,
        p: &AdaptiveParams,
        hooks: &'a mut Hooks,
    ) -> Result<Planner<'a>> {",
    ),
    replace(
        1,
        "hooks",
        "    params: &AdaptiveParams,\n) -> Result<AdaptiveResult> {",
        "    params: &AdaptiveParams,\n    hooks: &mut Hooks,\n) -> Result<AdaptiveResult> {",
    ),
    replace(
        1,
        "hooks",
        "Planner::new(region, stock, params)?",
        "Planner::new(region, stock, params, hooks)?",
    ),
    // Questions 16 and 17, and the events of term 3.
    replace(5, "a kept chunk: questions 16 and 17, its event", "self.chunks.push(", "self.put("),
    replace(
        1,
        "a tried pass: question 16, its event",
        r"
            let (cut, removed, log) = self.simulate(&pts);
",
        r"
            let (cut, removed, log) = timed!(self, simulate, self.simulate(&pts));
            self.tried(&cut, removed);
            if self.hooks.refused.is_some() {
                return true;
            }
",
    ),
    replace(
        1,
        "a withdrawn pass: its event",
        r"
                self.undo(&log);
                continue;
",
        r"
                self.undo(&log);
                self.event(Event::Withdrawn);
                continue;
",
    ),
    replace(
        1,
        "a link without a way: its event",
        r"
                None => self.put(Chunk::Plunge { at: q }),
            },
",
        r"
                None => {
                    self.event(Event::RefusedLink { to: q });
                    self.put(Chunk::Plunge { at: q })
                }
            },
",
    ),
    replace(
        1,
        "a helix place given up: its event",
        r"
            let n = self.flood_abandon(i, j);
",
        r"
            let n = self.flood_abandon(i, j);
            self.hooks.given_up += 1;
            self.event(Event::HelixGivenUp { center: c, cells: n });
",
    ),
    replace(
        1,
        REFUSED,
        r"
                if self.cut_piece(&piece) {
                    cut_any = true;
                }
",
        r"
                if self.cut_piece(&piece) {
                    cut_any = true;
                }
                if self.hooks.refused.is_some() {
                    return;
                }
",
    ),
    replace(
        1,
        REFUSED,
        r"
                    any |= self.cut_piece(p);
",
        r"
                    any |= self.cut_piece(p);
                    if self.hooks.refused.is_some() {
                        return;
                    }
",
    ),
    replace(
        1,
        REFUSED,
        r"
                self.pos = Some(c + v2(radius, 0.0));
",
        r"
                self.pos = Some(c + v2(radius, 0.0));
                if self.hooks.refused.is_some() {
                    return;
                }
",
    ),
    replace(
        1,
        REFUSED,
        r"
    planner.plan();
",
        r#"
    timed!(planner, plan, planner.plan());
    if planner.hooks.refused.is_some() {
        return Err(CamError::LimitExceeded("lent slices".into()));
    }
"#,
    ),
    // Times.
    replace(1, TIME, "= self.blend_in(&pts) else", "= timed!(self, blend, self.blend_in(&pts)) else"),
    replace(
        1,
        TIME,
        "\n            self.go_to(lead);\n",
        "\n            timed!(self, link, self.go_to(lead));\n",
    ),
    replace(
        1,
        TIME,
        r"
            let dist = self.material_distance();
            let f = self.field(&dist);
            let mut pieces = self.contours(&f, (2.0 * self.target) as f32);
",
        r"
            let dist = timed!(self, distance, self.material_distance());
            let f = timed!(self, field, self.field(&dist));
            let mut pieces = timed!(self, contours, self.contours(&f, (2.0 * self.target) as f32));
",
    ),
    replace(1, TIME, "= self.contours(&ring, 0.5);", "= timed!(self, contours, self.contours(&ring, 0.5));"),
    replace(1, TIME, "= self.find_helix() {", "= timed!(self, helix, self.find_helix()) {"),
    // For the tests and the comparison.
    publish(&[
        "    fn validate(&self)",
        "enum Chunk {",
        "struct Planner<'a> {",
        "struct Piece {",
        "    pts: Vec<Vec2>,\n    closed",
        "    closed: bool,\n}",
        "fn smooth(",
        "struct Node {",
        "    f: f64,\n    id",
        "    id: usize,\n}",
    ]),
    publish(&[
        "    fn allowed_at(",
        "    fn free(",
        "    fn material_distance(",
        "    fn field(",
        "    fn contours(",
        "    fn simulate(",
        "    fn undo(",
        "    fn blend_in(",
        "    fn link_clear(",
        "    fn link_path(",
        "    fn go_to(",
        "    fn cut_piece(",
        "    fn find_helix(",
        "    fn flood_abandon(",
        "    fn plan(",
        "    fn nudge_inside(",
        "    fn remaining(",
    ]),
    publish(&[
        "\n    walls: SegIndex,",
        "\n    r: f64,",
        "\n    r_guard: f64,",
        "\n    keep: f64,",
        "\n    cell: f64,",
        "\n    target: f64,",
        "\n    guard: f64,",
        "\n    samples: usize,",
        "\n    nx: usize,",
        "\n    ny: usize,",
        "\n    m: Grid,",
        "\n    allowed: Vec<bool>,",
        "\n    reach: Grid,",
        "\n    wall_dist: Vec<f64>,",
        "\n    keep_down: bool,",
        "\n    chunks: Vec<Chunk>,",
        "\n    planned_max: f64,",
        "\n    work: usize,",
        "\n    warnings: Vec<String>,",
        "\n    pos: Option<Vec2>,",
        "\n    abandoned: Grid,",
        "\n    last_field: Option<Vec<f32>>,",
        "\n    dirty: Vec<bool>,",
        "\n    all_dirty: bool,",
    ]),
];
