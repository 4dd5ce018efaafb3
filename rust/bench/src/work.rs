//! What is measured: long logs, term sheets and a text.

const X: u16 = 65_535;
const SORT: u16 = 1;
const MAX_STEPS: usize = 65_535;

/// A value that no constant of the input has.
const FREE: u16 = 60_000;

const DECIDE: u16 = 0;
const DEDUCE: u16 = 1;
const CLASH: u16 = 2;
const RESOLVE: u16 = 3;
const CLEAR: u16 = 4;
const JUMP: u16 = 5;
const LEARN: u16 = 8;

const EQ: u16 = 0;
const NOT: u16 = 1;
const AND: u16 = 2;
const OR: u16 = 3;

const SAME: u16 = 0;
const SYM: u16 = 3;
const TRANS: u16 = 4;
const NEG: u16 = 5;
const PART: u16 = 6;
const UNIT: u16 = 7;
const EVAL: u16 = 8;
const CONG: u16 = 9;
const PRED: u16 = 10;
const DEEP: u16 = 13;

/// Four sheets, and a line that says what they are.
#[derive(Default)]
pub struct Sheets {
    pub about: String,
    pub sorts: Vec<u16>,
    pub terms: Vec<u16>,
    pub inputs: Vec<u16>,
    pub steps: Vec<u16>,
    /// The place of the last step, which is refused with 13; 0 if all are allowed.
    pub place: u16,
    free: u16,
}

impl Sheets {
    fn new() -> Self {
        Sheets {
            sorts: vec![X, X],
            free: 16,
            ..Sheets::default()
        }
    }

    pub fn rows(&self) -> usize {
        self.terms.len() / 6
    }

    pub fn step_rows(&self) -> usize {
        self.steps.len() / 9
    }

    /// Verdict, steps, number and place that they have to get.
    pub fn expected(&self) -> [u16; 4] {
        let steps = self.step_rows() as u16;
        match self.place {
            0 => [0, steps, 0, 0],
            place => [2, steps - 1, 13, place],
        }
    }

    fn term(&mut self, head: u16, sort: u16, args: &[u16]) -> u16 {
        let mut row = [X; 6];
        row[0] = head;
        row[1] = sort;
        row[2..2 + args.len()].copy_from_slice(args);
        self.terms.extend(row);
        self.rows() as u16 - 1
    }

    fn prop(&mut self, head: u16, args: &[u16]) -> u16 {
        self.term(head, 0, args)
    }

    fn head(&mut self) -> u16 {
        self.free += 1;
        self.free - 1
    }

    fn constant(&mut self, sort: u16) -> u16 {
        let head = self.head();
        self.term(head, sort, &[])
    }

    fn input(&mut self, term: u16, value: u16) {
        self.inputs.extend([term, value]);
    }

    fn step(&mut self, step: u16, rule: u16, term: u16, value: u16, premises: &[u16]) {
        let mut row = [X; 9];
        row[..4].copy_from_slice(&[step, rule, term, value]);
        row[4..4 + premises.len()].copy_from_slice(premises);
        self.steps.extend(row);
    }

    /// A constant that has a value from the input, its row number.
    fn given(&mut self) -> u16 {
        let term = self.constant(SORT);
        self.input(term, term);
        term
    }

    /// A prop that is true from the input.
    fn truth(&mut self) -> u16 {
        let prop = self.constant(0);
        self.input(prop, 1);
        prop
    }

    /// Fills the term sheet with constants that have a value from the input.
    fn pad(&mut self, rows: usize) {
        while self.rows() < rows {
            self.given();
        }
    }
}

/// A constant that is decided with one value after another. Each but the last is given
/// up by a clear, after an equation that was deduced late, of the level below, and that
/// stands against it from then on, until that level is given up too.
struct Wheel {
    slot: u16,
    /// True at the level below: a prop of level 0, and the mark of the wheel below.
    below: Vec<u16>,
    stops: Vec<Stop>,
    /// An equation that is true at the wheel's level, where another stands above it.
    mark: Option<u16>,
}

/// A constant that has the value, the equation, and a denial of it where all that the
/// wheel has below is true.
struct Stop {
    other: u16,
    equation: u16,
    denial: u16,
}

impl Sheets {
    /// So many wheels, one above the other, each with so many values and one more.
    fn wheels(&mut self, count: usize, values: usize, ground: u16) -> Vec<Wheel> {
        let others: Vec<u16> = (0..values).map(|_| self.given()).collect();
        let mut wheels: Vec<Wheel> = Vec::new();
        for at in 0..count {
            let slot = self.constant(SORT);
            let mark = wheels.last().and_then(|wheel| wheel.mark);
            let below: Vec<u16> = [ground].into_iter().chain(mark).collect();
            let stops = others
                .iter()
                .map(|&other| self.stop(slot, other, &below))
                .collect();
            let mark = (at + 1 < count).then(|| self.prop(EQ, &[slot, slot]));
            wheels.push(Wheel {
                slot,
                below,
                stops,
                mark,
            });
        }
        wheels
    }

    fn stop(&mut self, slot: u16, other: u16, below: &[u16]) -> Stop {
        let equation = self.prop(EQ, &[slot, other]);
        let denial = self.prop(AND, &[below, &[equation]].concat());
        self.input(denial, 0);
        Stop {
            other,
            equation,
            denial,
        }
    }

    /// Turns the wheels, each through all its values at every value of the one below,
    /// with the body's steps at all values of the last one, up to the ceiling. With a
    /// ground, the conflicts are resolved down to what that rests on.
    fn turn(&mut self, wheels: &[Wheel], body: &[u16], ground: Option<u16>) {
        let Some((wheel, above)) = wheels.split_first() else {
            self.steps.extend(body);
            return;
        };
        for at in 0..=wheel.stops.len() {
            if self.step_rows() >= MAX_STEPS {
                return;
            }
            let stop = wheel.stops.get(at);
            let value = stop.map_or(FREE, |stop| stop.other);
            self.step(DECIDE, X, wheel.slot, value, &[]);
            if let Some(mark) = wheel.mark {
                self.step(DEDUCE, SAME, mark, 1, &[wheel.slot, wheel.slot]);
            }
            self.turn(above, body, ground);
            if let Some(stop) = stop {
                self.give_up(wheel, stop, ground);
            }
        }
    }

    /// The late equation, the clash, and the clear.
    fn give_up(&mut self, wheel: &Wheel, stop: &Stop, ground: Option<u16>) {
        let premises = [&[stop.denial], &wheel.below[..]].concat();
        self.step(DEDUCE, UNIT, stop.equation, 0, &premises);
        let sides = [wheel.slot, stop.other];
        self.step(CLASH, SAME, stop.equation, 1, &sides);
        if let Some(ground) = ground {
            self.step(RESOLVE, X, stop.equation, X, &[]);
            self.step(RESOLVE, X, ground, X, &[]);
        }
        self.step(CLEAR, X, wheel.slot, X, &[]);
    }

    /// Repeats the steps so far at the turns of the wheels, up to the ceiling.
    fn repeat(&mut self, wheels: &[Wheel], ground: Option<u16>) {
        let body = std::mem::take(&mut self.steps);
        self.turn(wheels, &body, ground);
        self.cut();
    }

    /// Cuts the log at the ceiling; one that is shorter says so.
    fn cut(&mut self) {
        self.steps.truncate(9 * MAX_STEPS);
        let steps = self.step_rows();
        if steps < MAX_STEPS {
            self.about += &format!(", {steps} steps");
        }
    }

    /// The length of a cycle of the steps so far: a wheel is decided before them, and
    /// behind them come the late equation, the clash and the clear.
    fn cycle(&self) -> usize {
        self.step_rows() + 4
    }
}

/// A decision, then deductions from it by same, sym, trans, cong, pred, unit and
/// eval until the term sheet is used up, then a clash that clears the decision below.
pub fn deduce_heavy() -> Sheets {
    let mut s = Sheets::new();
    let (f, q) = (s.head(), s.head());
    let ground = s.truth();
    let wheels = s.wheels(4, 4, ground);
    let [c, d] = [0; 2].map(|_| s.constant(SORT));
    s.input(d, 7);
    s.step(DECIDE, X, c, 7, &[]);
    let (mut x, mut y) = (c, d);
    let mut before = None;
    let mut deduced = 0;
    while s.rows() + 11 <= 256 {
        let e = s.prop(EQ, &[x, y]);
        match before {
            None => s.step(DEDUCE, SAME, e, 1, &[x, y]),
            Some(equality) => s.step(DEDUCE, CONG, e, 1, &[equality]),
        }
        let back = s.prop(EQ, &[y, x]);
        s.step(DEDUCE, SYM, back, 1, &[e]);
        let both = s.prop(EQ, &[x, x]);
        s.step(DEDUCE, TRANS, both, 1, &[e, back]);
        let not = s.prop(NOT, &[e]);
        s.step(DEDUCE, EVAL, not, 0, &[e]);
        let atom = s.constant(0);
        let clause = s.prop(OR, &[not, atom]);
        s.input(clause, 1);
        s.step(DEDUCE, UNIT, atom, 1, &[clause, not]);
        let (qx, qy) = (s.prop(q, &[x]), s.prop(q, &[y]));
        s.input(qx, 1);
        s.step(DEDUCE, PRED, qy, 1, &[qx, e]);
        let and = s.prop(AND, &[e, back]);
        s.step(DEDUCE, EVAL, and, 1, &[e, back]);
        deduced += 7;
        before = Some(e);
        (x, y) = (s.term(f, SORT, &[x]), s.term(f, SORT, &[y]));
    }
    s.pad(256);
    let cycle = s.cycle();
    s.about = format!("{deduced} deduces of a cycle of {cycle} steps, 256 terms");
    s.repeat(&wheels, None);
    s
}

/// A chain of deductions above two decisions, a clash at its end, a conflict resolved
/// back to the second by way of many resolves, a jump, then a clear below both.
pub fn conflict_heavy() -> Sheets {
    const LINKS: usize = 24;
    const DETOUR: usize = 48;
    let mut s = Sheets::new();
    let ground = s.truth();
    let wheels = s.wheels(4, 5, ground);
    let [c, d] = [0; 2].map(|_| s.constant(SORT));
    s.input(d, 7);
    s.pad(256 - LINKS - 3);
    let low = s.prop(EQ, &[c, d]);
    let first = s.constant(0);
    s.step(DECIDE, X, c, 7, &[]);
    s.step(DEDUCE, SAME, low, 1, &[c, d]);
    s.step(DECIDE, X, first, 1, &[]);
    // Every link is the conjunction of up to three terms before it.
    let mut links = vec![low, first];
    let mut reasons = vec![Vec::new(), Vec::new()];
    for _ in 0..LINKS {
        let args = links[links.len().saturating_sub(3)..].to_vec();
        let link = s.prop(AND, &args);
        s.step(DEDUCE, EVAL, link, 1, &args);
        links.push(link);
        reasons.push(args);
    }
    let last = *links.last().unwrap();
    let not = s.prop(NOT, &[last]);
    s.input(not, 1);
    s.step(CLASH, NEG, last, 0, &[not]);
    // The links of the conflict by position. At first the lowest one but the two
    // at the bottom is resolved, so that links come back; then the highest.
    let mut members = vec![links.len() - 1];
    let mut resolves = 0;
    while members.iter().any(|&at| at > 1) {
        let open = members.iter().copied().filter(|&at| at > 1);
        let at = if resolves < DETOUR {
            open.min().unwrap()
        } else {
            open.max().unwrap()
        };
        s.step(RESOLVE, X, links[at], X, &[]);
        resolves += 1;
        members.retain(|&other| other != at);
        for arg in &reasons[at] {
            let position = links.iter().position(|link| link == arg).unwrap();
            if !members.contains(&position) {
                members.push(position);
            }
        }
    }
    s.step(JUMP, X, first, X, &[]);
    let cycle = s.cycle();
    s.about =
        format!("{resolves} resolves and {LINKS} deduces of a cycle of {cycle} steps, 256 terms");
    s.repeat(&wheels, None);
    s
}

/// Wide conflicts: once, a prop becomes true at level 0, justified by all the leaves
/// of a tree of conjunctions. Then cycles that resolve it into a conflict, jump by that
/// conflict, resolve what the jump added, and clear by a conflict that it is resolved
/// into too: two steps of every six, and two of the eight around them, go over a set of
/// all the leaves.
pub fn wide_conflicts(rows: usize, wheels: [usize; 2]) -> Sheets {
    const ROUNDS: usize = 4;
    let mut s = Sheets::new();
    let [c, other] = [0; 2].map(|_| s.constant(SORT));
    s.input(other, 7);
    let wide = s.constant(0);
    let low = s.prop(EQ, &[c, other]);
    let wheels = s.wheels(wheels[0], wheels[1], wide);
    // Of what is left, about three rows of four are leaves, the others the tree.
    let leaves = (rows - s.rows() - 5 - 3 * ROUNDS) * 3 / 4;
    let mut layer: Vec<u16> = (0..leaves).map(|_| s.truth()).collect();
    let mut tree = Vec::new();
    while layer.len() > 1 {
        let mut above = Vec::new();
        for args in layer.chunks(4) {
            if let [alone] = args {
                above.push(*alone);
                continue;
            }
            let and = s.prop(AND, args);
            s.step(DEDUCE, EVAL, and, 1, args);
            tree.push(and);
            above.push(and);
        }
        layer = above;
    }
    let not_all = s.prop(NOT, &[layer[0]]);
    let clause = s.prop(OR, &[not_all, wide]);
    s.input(clause, 1);
    s.step(DEDUCE, EVAL, not_all, 0, &[layer[0]]);
    s.step(DECIDE, X, wide, 0, &[]);
    s.step(CLASH, UNIT, wide, 1, &[clause, not_all]);
    for &row in [not_all].iter().chain(tree.iter().rev()) {
        s.step(RESOLVE, X, row, X, &[]);
    }
    s.step(JUMP, X, wide, X, &[]);
    let once = std::mem::take(&mut s.steps);
    // The cycle: above the wheels the equality `low` holds, so that jumps end there.
    s.step(DECIDE, X, c, 7, &[]);
    s.step(DEDUCE, SAME, low, 1, &[c, other]);
    let mut before = wide;
    for round in 0..ROUNDS {
        let atom = s.constant(0);
        let not = s.prop(NOT, &[atom]);
        let args = match round {
            0 => vec![before, low, not],
            _ => vec![before, not],
        };
        let clause = s.prop(AND, &args);
        s.input(clause, 0);
        let mut premises = vec![clause];
        premises.extend(&args[..args.len() - 1]);
        s.step(DECIDE, X, atom, 0, &[]);
        s.step(DEDUCE, EVAL, not, 1, &[atom]);
        s.step(CLASH, UNIT, not, 0, &premises);
        s.step(RESOLVE, X, not, X, &[]);
        s.step(RESOLVE, X, before, X, &[]);
        s.step(JUMP, X, atom, X, &[]);
        before = atom;
    }
    s.pad(rows);
    let cycle = s.cycle() + 2;
    s.about = format!("sets of {leaves} members and more, a cycle of {cycle} steps, {rows} terms");
    let body = std::mem::replace(&mut s.steps, once);
    s.turn(&wheels, &body, Some(wide));
    s.cut();
    s
}

/// Conflicts that end with a learn: rounds of two to four decisions that a rule of the
/// first decision's level excludes, and a clause that says so, an or or an and in turns.
/// Two rounds of three keep all decisions but the last, whose opposite the clause then
/// gives by unit; the third goes back to the rule's level. A clear below that ends the
/// cycle.
pub fn learn_heavy() -> Sheets {
    const ROUNDS: usize = 20;
    let mut s = Sheets::new();
    let ground = s.truth();
    let wheels = s.wheels(4, 4, ground);
    let [c, d] = [0; 2].map(|_| s.constant(SORT));
    s.input(d, 7);
    let low = s.prop(EQ, &[c, d]);
    let not_low = s.prop(NOT, &[low]);
    s.step(DECIDE, X, c, 7, &[]);
    s.step(DEDUCE, SAME, low, 1, &[c, d]);
    s.step(DEDUCE, EVAL, not_low, 0, &[low]);
    let first = wheels.len() as u16 + 1;
    let mut top = first;
    for round in 0..ROUNDS {
        let count = 2 + round % 3;
        let rule = s.excluded(count, round % 4 < 2, not_low);
        top = match round % 3 {
            2 => first,
            _ => top + count as u16 - 1,
        };
        let clause = s.learned(&rule, round % 2 == 0, top);
        if round % 3 != 2 {
            s.use_learned(&rule, &clause);
        }
    }
    s.pad(256);
    let cycle = s.cycle();
    let rows = s.steps.chunks(9);
    let deduces = rows.filter(|row| row[0] == DEDUCE).count();
    s.about = format!("{ROUNDS} learns, {deduces} deduces of a cycle of {cycle} steps, 256 terms");
    s.repeat(&wheels, None);
    s
}

/// Props that a rule excludes to have these values all at once.
struct Excluded {
    whole: u16,
    props: Vec<u16>,
    nots: Vec<u16>,
    values: Vec<u16>,
}

/// A clause that says so, by its row, its head and its argument for each prop.
struct Learned {
    row: u16,
    head: u16,
    literals: Vec<u16>,
}

impl Sheets {
    /// A connective that is false at the level of `not_low`: an and of props, to be true,
    /// or an or of props, of which the first is to be true and the others false.
    fn excluded(&mut self, count: usize, all: bool, not_low: u16) -> Excluded {
        let props: Vec<u16> = (0..count).map(|_| self.constant(0)).collect();
        let nots = props.iter().map(|&prop| self.prop(NOT, &[prop])).collect();
        let whole = self.prop(if all { AND } else { OR }, &props);
        let not_whole = self.prop(NOT, &[whole]);
        let rule = self.prop(OR, &[not_low, not_whole]);
        self.input(rule, 1);
        self.step(DEDUCE, UNIT, not_whole, 1, &[rule, not_low]);
        self.step(DEDUCE, NEG, whole, 0, &[not_whole]);
        let values = (0..count).map(|at| u16::from(all || at == 0)).collect();
        Excluded {
            whole,
            props,
            nots,
            values,
        }
    }

    /// Decides the props, clashes, and learns a clause: an or or an and, keeping the level.
    fn learned(&mut self, rule: &Excluded, or: bool, level: u16) -> Learned {
        let head = if or { OR } else { AND };
        let count = rule.props.len();
        let literals: Vec<u16> = (0..count)
            .map(|at| match (rule.values[at] == 1) == or {
                true => rule.nots[at],
                false => rule.props[at],
            })
            .collect();
        let args: Vec<u16> = literals.iter().rev().copied().collect();
        let row = self.prop(head, &args);
        for (&prop, &value) in rule.props.iter().zip(&rule.values) {
            self.step(DECIDE, X, prop, value, &[]);
        }
        self.step(CLASH, EVAL, rule.whole, 1, &rule.props);
        self.step(LEARN, X, row, level, &rule.props);
        Learned {
            row,
            head,
            literals,
        }
    }

    /// Deduces from the clause that the last prop has the other value.
    fn use_learned(&mut self, rule: &Excluded, clause: &Learned) {
        let last = rule.props.len() - 1;
        for at in 0..last {
            if clause.literals[at] == rule.nots[at] {
                self.step(
                    DEDUCE,
                    EVAL,
                    rule.nots[at],
                    1 - rule.values[at],
                    &[rule.props[at]],
                );
            }
        }
        let mut premises = vec![clause.row];
        premises.extend(clause.literals[..last].iter().rev());
        let value = u16::from(clause.head == OR);
        self.step(DEDUCE, UNIT, clause.literals[last], value, &premises);
        if clause.literals[last] == rule.nots[last] {
            let other = 1 - rule.values[last];
            self.step(DEDUCE, NEG, rule.props[last], other, &[rule.nots[last]]);
        }
    }
}

/// Deductions by deep of formulas of two to four layers, each from three to five
/// premises, one of them of a decision, which a clear below it drops at the end.
pub fn deep_heavy() -> Sheets {
    let mut s = Sheets::new();
    let (wheels, low) = s.low(5);
    let given: Vec<u16> = (0..3).map(|_| s.constant(0)).collect();
    for (at, &prop) in given.iter().enumerate() {
        s.input(prop, at as u16 % 2);
    }
    let mut deduced = 0;
    while s.rows() + 6 <= 256 {
        let atom = s.constant(0);
        s.input(atom, deduced / 3 % 2);
        let both = s.prop(AND, &[atom, low]);
        let not = s.prop(NOT, &[atom]);
        // The or is true, and so is the and of it with the second of the given.
        let mut formula = s.prop(OR, &[both, given[0], not]);
        let mut premises = vec![given[0], atom, low];
        if deduced % 3 > 0 {
            formula = s.prop(AND, &[given[1], formula]);
            premises.insert(1, given[1]);
        }
        if deduced % 3 > 1 {
            formula = s.prop(AND, &[formula, given[2]]);
            premises.push(given[2]);
        }
        let value = u16::from(deduced % 3 < 2);
        s.step(DEDUCE, DEEP, formula, value, &premises);
        deduced += 1;
    }
    s.deep_end(&wheels, deduced, "deduces of two to four layers")
}

/// Deductions by deep that go into all rows of eight layers: four rows a layer, each over
/// all four of the layer below, and on the last of them the conclusions.
pub fn deep_shared() -> Sheets {
    let mut s = Sheets::new();
    let (wheels, base) = s.deep_base(5);
    let mut below = base.clone();
    for _ in 1..8 {
        below = s.layer(&below, 4);
    }
    s.deep_tops(&below, &base, 48);
    s.deep_end(&wheels, 48, "deduces of eight layers of four rows")
}

/// The same over layers of more rows, which are about all that there can be.
pub fn deep_wide() -> Sheets {
    let mut s = Sheets::new();
    let (wheels, base) = s.deep_base(2);
    let mut below = base.clone();
    for rows in [31, 31, 31, 31, 58, 16, 4] {
        below = s.layer(&below, rows);
    }
    s.deep_tops(&below, &base, 24);
    s.deep_end(&wheels, 24, "deduces of eight layers, about all rows")
}

impl Sheets {
    /// A cycle begins, above so many wheels: a decision, and an equality that follows
    /// from it.
    fn low(&mut self, wheels: usize) -> (Vec<Wheel>, u16) {
        let ground = self.truth();
        let wheels = self.wheels(wheels, 4, ground);
        let [c, d] = [0; 2].map(|_| self.constant(SORT));
        self.input(d, 7);
        let low = self.prop(EQ, &[c, d]);
        self.step(DECIDE, X, c, 7, &[]);
        self.step(DEDUCE, SAME, low, 1, &[c, d]);
        (wheels, low)
    }

    /// Four premises, all of them true, one of a decision.
    fn deep_base(&mut self, wheels: usize) -> (Vec<Wheel>, Vec<u16>) {
        let (wheels, low) = self.low(wheels);
        let mut base = vec![low];
        base.extend((0..3).map(|_| self.truth()));
        (wheels, base)
    }

    /// So many different connectives of four rows of a layer, which has all of these.
    fn layer(&mut self, below: &[u16], rows: usize) -> Vec<u16> {
        let count = below.len();
        (0..rows)
            .map(|at| {
                // At each turn round the layer the arguments stand in another order.
                let turn = 4 * at / count;
                let mut args = [0, 1, 2, 3].map(|arg| below[(4 * at + arg) % count]);
                args.rotate_left(turn % 4);
                args[1..].rotate_left(turn / 4 % 3);
                args[2..].rotate_left(turn / 24 % 2);
                self.prop([OR, AND][(at + turn / 12) % 2], &args)
            })
            .collect()
    }

    /// So many deductions of connectives of the four rows on top.
    fn deep_tops(&mut self, below: &[u16], premises: &[u16], count: usize) {
        for top in self.layer(below, count) {
            self.step(DEDUCE, DEEP, top, 1, premises);
        }
    }

    /// The end of the cycle, which is repeated.
    fn deep_end(mut self, wheels: &[Wheel], deduced: u16, about: &str) -> Sheets {
        let (cycle, rows) = (self.cycle(), self.rows());
        self.about = format!("{deduced} {about} of a cycle of {cycle} steps, {rows} terms");
        self.repeat(wheels, None);
        self
    }
}

/// Decide, deduce, clash, clear, over a trail of inputs.
pub fn cut_heavy() -> Sheets {
    let mut s = Sheets::new();
    let ground = s.truth();
    let wheels = s.wheels(6, 4, ground);
    s.pad(256);
    let (cycle, inputs) = (s.cycle(), s.inputs.len() / 2);
    s.about = format!("cycle of {cycle} steps over {inputs} input entries, 256 terms");
    s.repeat(&wheels, None);
    s
}

/// Decisions one above the other, over equations of the input: every other constant that
/// is decided stands in one, on either side, most equations are of others. A clear below
/// drops them all.
pub fn decide_heavy() -> Sheets {
    const DECIDED: usize = 96;
    let mut s = Sheets::new();
    let ground = s.truth();
    let wheels = s.wheels(4, 5, ground);
    let others: Vec<u16> = (0..24).map(|_| s.given()).collect();
    let slots: Vec<u16> = (0..DECIDED).map(|_| s.constant(SORT)).collect();
    for (at, &slot) in slots.iter().enumerate() {
        let other = others[at / 4];
        let mut value = slot;
        match at % 8 {
            0 => s.equation([slot, other], 0),
            2 => s.equation([other, slot], 0),
            4 => {
                s.equation([slot, other], 1);
                value = other;
            }
            // The next one has no value yet when this one is decided.
            6 => s.equation([slots[at + 1], slot], 0),
            _ => (),
        }
        s.step(DECIDE, X, slot, value, &[]);
    }
    let mut pairs = (0..24).flat_map(|one| (0..one).map(move |two| [one, two]));
    while s.rows() < 256 {
        let pair = pairs.next().expect("a pair for every row");
        s.equation(pair.map(|at| others[at]), 0);
    }
    let equations = s.terms.chunks(6).filter(|row| row[0] == EQ).count();
    let cycle = s.cycle();
    s.about =
        format!("{DECIDED} decides of a cycle of {cycle} steps, {equations} equations, 256 terms");
    s.repeat(&wheels, None);
    s
}

/// The same without any equation: a prop below, and a jump that keeps level 0.
pub fn decide_bare() -> Sheets {
    const DECIDED: usize = 96;
    let mut s = Sheets::new();
    let slots: Vec<u16> = (0..DECIDED).map(|_| s.constant(SORT)).collect();
    for _ in 0..20 {
        let props = [0; 4].map(|_| s.constant(0));
        let none = s.prop(OR, &props);
        s.input(none, 0);
        for prop in props {
            s.step(DECIDE, X, prop, 1, &[]);
            for &slot in &slots {
                s.step(DECIDE, X, slot, slot, &[]);
            }
            s.step(CLASH, PART, prop, 0, &[none]);
            s.step(JUMP, X, prop, X, &[]);
        }
    }
    s.pad(256);
    let cycle = DECIDED + 3;
    s.about = format!("{DECIDED} decides of a cycle of {cycle} steps, 256 terms");
    s.cut();
    s
}

impl Sheets {
    /// An equation that is given.
    fn equation(&mut self, sides: [u16; 2], value: u16) {
        let equation = self.prop(EQ, &sides);
        self.input(equation, value);
    }
}

/// The sheets of the deduce-heavy log, without its steps.
pub fn mixed_heads() -> Sheets {
    let mut sheets = deduce_heavy();
    sheets.about = "the term and input sheets of the deduce-heavy log".into();
    sheets.steps.clear();
    sheets
}

/// 256 constants, each of a head of its own.
pub fn distinct_heads() -> Sheets {
    let mut s = Sheets::new();
    for _ in 0..256 {
        s.constant(SORT);
    }
    s.about = "256 heads without arguments".into();
    s
}

/// One head, rows equal but for the last column.
pub fn one_head() -> Sheets {
    let mut s = Sheets::new();
    let c = s.constant(SORT);
    let f = s.head();
    for last in c..255 {
        s.term(f, SORT, &[c, c, c, last]);
    }
    s.about = "one head, rows equal but for the last column".into();
    s
}

/// One deduce by pred whose place is 3: every row of its head could be the premise, and
/// has all equalities but the last, and these stand at the end of the sheet.
pub fn refused_row() -> Sheets {
    let mut s = Sheets::new();
    let slots: Vec<u16> = (0..5).map(|_| s.constant(SORT)).collect();
    let apart = s.constant(SORT);
    let head = s.head();
    let row = s.prop(head, &[slots[0], slots[0], slots[0], apart]);
    for at in 0..224 {
        let slot = |step: usize| slots[at / step % slots.len()];
        s.prop(head, &[slot(125), slot(25), slot(5), slot(1)]);
    }
    for left in &slots {
        for right in &slots {
            s.prop(EQ, &[*left, *right]);
        }
    }
    s.step(DEDUCE, PRED, row, 1, &[]);
    s.place = 3;
    s.about = format!("one deduce by pred, refused, {} terms", s.rows());
    s
}

/// A text of 256 terms and 1,024 steps.
pub fn text() -> (String, Vec<u8>) {
    let s = deduce_heavy();
    let name = |row: u16| match row {
        X => "-".to_string(),
        _ => format!("term_{row}"),
    };
    let heads = ["eq", "not", "and", "or"];
    let steps = ["decide", "deduce", "clash", "resolve", "clear", "jump"];
    let rules = [
        "same", "differ", "refl", "sym", "trans", "neg", "part", "unit", "eval", "cong", "pred",
    ];
    let value = |value: u16| match value {
        X => "-".to_string(),
        0 => "false".to_string(),
        1 => "true".to_string(),
        _ => value.to_string(),
    };
    let mut text = String::from("sort index value\nS - -\n\nterm head sort a b c d\n");
    for (at, row) in s.terms.chunks(6).enumerate() {
        let head = heads
            .get(usize::from(row[0]))
            .map_or_else(|| format!("head_{}", row[0]), |word| word.to_string());
        let sort = if row[1] == 0 { "prop" } else { "S" };
        let args: Vec<String> = row[2..].iter().map(|&arg| name(arg)).collect();
        text += &format!("term_{at} {head} {sort} {}\n", args.join(" "));
    }
    text += "\nterm value\n";
    for row in s.inputs.chunks(2) {
        text += &format!("{} {}\n", name(row[0]), value(row[1]));
    }
    text += "\nstep rule term value p q r s t\n";
    for row in s.steps.chunks(9).take(1_024) {
        let rule = rules.get(usize::from(row[1])).unwrap_or(&"-");
        let premises: Vec<String> = row[4..].iter().map(|&premise| name(premise)).collect();
        text += &format!(
            "{} {rule} {} {} {}\n",
            steps[usize::from(row[0])],
            name(row[2]),
            value(row[3]),
            premises.join(" ")
        );
    }
    let about = format!("256 terms, 1,024 steps, {} bytes", text.len());
    (about, text.into_bytes())
}

/// A text of 256 terms of these names, and 1,024 steps of six names each.
fn named_text(about: &str, names: &[String]) -> (String, Vec<u8>) {
    let mut text = String::from("sort index value\nS - -\n\nterm head sort a b c d\n");
    for name in names {
        text += &format!("{name} head S - - - -\n");
    }
    text += "\nterm value\n\nstep rule term value p q r s t\n";
    let mut at = 0;
    let mut next = || {
        at = (at * 5 + 89) % names.len();
        &names[at]
    };
    for _ in 0..1_024 {
        let [a, b, c, d, e, f] = [next(), next(), next(), next(), next(), next()];
        text += &format!("deduce same {a} true {b} {c} {d} {e} {f}\n");
    }
    let about = format!("{about}, {} bytes", text.len());
    (about, text.into_bytes())
}

/// Names of 64 bytes that differ in the last three.
pub fn long_names() -> (String, Vec<u8>) {
    let names: Vec<String> = (0..256)
        .map(|at| format!("{:_<61}{at:03}", "name"))
        .collect();
    named_text("names of 64 bytes", &names)
}

/// 256 names that a test takes, of one form: a number in letters, within a name.
fn names_that(fit: impl Fn(&[u8]) -> bool) -> Vec<String> {
    let letters = |mut number: u32| {
        let mut word = String::new();
        for _ in 0..5 {
            word.push(char::from(b'a' + (number % 26) as u8));
            number /= 26;
        }
        word
    };
    (0..)
        .map(|number| format!("term_of_some_board_{}", letters(number)))
        .filter(|name| fit(name.as_bytes()))
        .take(256)
        .collect()
}

/// Names whose bytes mix to one and the same byte, in the order h * 9 + b.
pub fn one_byte_tag() -> (String, Vec<u8>) {
    let tag = |name: &[u8]| {
        name.iter()
            .fold(0u8, |h, b| h.wrapping_mul(9).wrapping_add(*b))
    };
    named_text(
        "256 names of one byte as a tag",
        &names_that(|name| tag(name) == 0),
    )
}

/// The tag of a name in the reader's own table.
fn reader_tag(name: &[u8]) -> u64 {
    let mixed = |h: u64, w: u64| (h + w) % 4_294_967_296 * 2_654_435_761;
    let word = |at: usize| {
        let four = name[at..at + 4].try_into().expect("four bytes");
        u64::from(u32::from_le_bytes(four))
    };
    let h = match name.len().checked_sub(4) {
        None => name.iter().fold(0, |h, &byte| mixed(h, byte.into())),
        Some(last) => {
            let before = (0..last).step_by(4).fold(0, |h, at| mixed(h, word(at)));
            mixed(before, word(last))
        }
    };
    h / 1_073_741_824 % 1_024
}

/// Names of one tag of the reader's own table: they make one tree.
pub fn one_tag() -> (String, Vec<u8>) {
    let names = names_that(|name| reader_tag(name) == 0);
    named_text("256 names of one tag", &names)
}

/// Such names of three bytes each.
pub fn one_tag_short() -> (String, Vec<u8>) {
    let letter = |number: u32| char::from(33 + (number % 94) as u8);
    let names: Vec<String> = (0..94 * 94 * 94)
        .map(|number| {
            [94 * 94, 94, 1]
                .map(|unit| letter(number / unit))
                .into_iter()
                .collect()
        })
        .filter(|name: &String| reader_tag(name.as_bytes()) == 0)
        .take(256)
        .collect();
    named_text("256 names of three bytes and one tag", &names)
}

/// Such names of 64 bytes each, which begin alike.
pub fn one_tag_long() -> (String, Vec<u8>) {
    let names: Vec<String> = (0..)
        .map(|number| format!("{:_<56}{number:08}", "name"))
        .filter(|name| reader_tag(name.as_bytes()) == 0)
        .take(256)
        .collect();
    named_text("256 names of 64 bytes and one tag", &names)
}

/// Newlines alone: the first line is bad, and all others have only to be counted.
pub fn newlines() -> (String, Vec<u8>) {
    ("100,000 newlines".into(), vec![b'\n'; 100_000])
}

/// One line that is too long, with no newline behind it.
pub fn one_line() -> (String, Vec<u8>) {
    ("a line of 100,000 bytes".into(), vec![b'a'; 100_000])
}
