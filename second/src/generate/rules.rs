//! The rules of a call in the order of its refusals: the first broken one gives the number. Each has values at its
//! edge, the last that pass and the first that do not. From them come every edge alone, two rules broken at once,
//! and damage by chance.

use super::order::{Order, Row, Shows, Shuts};
use super::rng::Rng;
use super::Case;
use crate::call::Call;

/// A value at the edge of a rule: how a valid plan gets it, and the number that then comes out.
pub struct Side<P> {
    pub value: String,
    pub apply: Box<dyn Fn(&mut P)>,
    pub gives: u32,
}

/// Breaks a rule by values that chance picks.
pub type Farther<P> = Box<dyn Fn(&mut P, &mut Rng)>;

/// One rule. `farther` breaks it by other values than the first. `shuts` says which rules of the next number cannot
/// be broken together with it, and why.
pub struct Rule<P> {
    pub number: u32,
    pub name: &'static str,
    pub last: Vec<Side<P>>,
    pub first: Vec<Side<P>>,
    pub farther: Option<Farther<P>>,
    pub shuts: Option<Shuts>,
}

/// A rule whose breach gives this number; its sides follow.
pub fn rule<P>(number: u32, name: &'static str) -> Rule<P> {
    Rule { number, name, last: vec![], first: vec![], farther: None, shuts: None }
}

impl<P> Rule<P> {
    /// A last value that passes.
    pub fn passes(self, value: impl Into<String>, apply: impl Fn(&mut P) + 'static) -> Rule<P> {
        self.leads_to(0, value, apply)
    }

    /// A last value that passes this rule and then meets a later one.
    pub fn leads_to(
        mut self,
        gives: u32,
        value: impl Into<String>,
        apply: impl Fn(&mut P) + 'static,
    ) -> Rule<P> {
        self.last.push(Side { value: value.into(), apply: Box::new(apply), gives });
        self
    }

    /// A first value that does not pass.
    pub fn breaks(mut self, value: impl Into<String>, apply: impl Fn(&mut P) + 'static) -> Rule<P> {
        let gives = self.number;
        self.first.push(Side { value: value.into(), apply: Box::new(apply), gives });
        self
    }

    pub fn farther(mut self, apply: impl Fn(&mut P, &mut Rng) + 'static) -> Rule<P> {
        self.farther = Some(Box::new(apply));
        self
    }

    /// Every rule of the next number is shut out.
    pub fn shuts(mut self, reason: &'static str) -> Rule<P> {
        self.shuts = Some(Shuts { reason, only: None });
        self
    }

    /// This rule of the next number is shut out.
    pub fn shuts_only(mut self, name: &'static str, reason: &'static str) -> Rule<P> {
        self.shuts = Some(Shuts { reason, only: Some(name) });
        self
    }

    fn can_be_with(&self, later: &Rule<P>) -> bool {
        !self.shuts.is_some_and(|shuts| shuts.out(later.name))
    }

    fn row(&self) -> Row {
        let values = |sides: &[Side<P>]| sides.iter().map(|side| (side.value.clone(), side.gives)).collect();
        Row {
            number: self.number,
            name: self.name,
            last: values(&self.last),
            first: values(&self.first),
            shuts: self.shuts,
        }
    }

    /// Breaks the rule in some way.
    fn break_by_chance(&self, plan: &mut P, rng: &mut Rng) {
        match &self.farther {
            Some(farther) if rng.chance(50) => farther(plan, rng),
            _ => (rng.pick(&self.first).apply)(plan),
        }
    }
}

/// Rules of a part as rules of the whole.
pub fn lifted<P: 'static, Q: 'static>(rules: Vec<Rule<Q>>, part: fn(&mut P) -> &mut Q) -> Vec<Rule<P>> {
    let side = |side: Side<Q>| {
        let apply = side.apply;
        Side { value: side.value, gives: side.gives, apply: Box::new(move |plan: &mut P| apply(part(plan))) }
    };
    let lift = |rule: Rule<Q>| Rule {
        number: rule.number,
        name: rule.name,
        last: rule.last.into_iter().map(side).collect(),
        first: rule.first.into_iter().map(side).collect(),
        farther: rule.farther.map(|farther| -> Farther<P> {
            Box::new(move |plan: &mut P, rng: &mut Rng| farther(part(plan), rng))
        }),
        shuts: rule.shuts,
    };
    rules.into_iter().map(lift).collect()
}

/// The rules without what they do, to be counted and shown.
pub fn order<P>(byte: u8, title: &'static str, rules: &[Rule<P>]) -> Order {
    Order { byte, title, rows: rules.iter().map(Rule::row).collect() }
}

/// Both sides of every rule, and every pair of neighbours in the order of refusals. A pair that cannot be is put
/// together too: the earlier rule decides all the same.
pub fn sides_and_pairs<P: Clone>(
    title: &'static str,
    rules: &[Rule<P>],
    rng: &mut Rng,
    valid: impl Fn(&mut Rng) -> P,
    call: impl Fn(&P, &mut Rng) -> Call,
) -> Vec<Case> {
    let mut cases = Vec::new();
    for rule in rules {
        for side in rule.last.iter().chain(&rule.first) {
            let mut plan = valid(rng);
            (side.apply)(&mut plan);
            let note = format!("{}: {}", rule.name, side.value);
            let case = Case::aimed(call(&plan, rng), side.gives, note);
            cases.push(case.showing(Shows::side(title, rule.name, &side.value)));
        }
    }
    for (k, j) in neighbours(rules) {
        for side in &rules[k].first {
            let plan = valid(rng);
            let both = two_broken(&plan, side, &rules[j], rng, &call);
            let note = format!("not so: {}: {}; and not so: {}", rules[k].name, side.value, rules[j].name);
            if rules[k].can_be_with(&rules[j]) {
                let mut one = plan.clone();
                (side.apply)(&mut one);
                assert_ne!(both, call(&one, &mut rng.clone()), "the later fault is not there: {note}");
            }
            let case = Case::aimed(both, rules[k].number, note);
            cases.push(case.showing(Shows::pair(title, rules[k].name, rules[j].name)));
        }
    }
    cases
}

/// A call on a plan with a later rule broken, and then an earlier one.
fn two_broken<P: Clone>(
    plan: &P,
    earlier: &Side<P>,
    later: &Rule<P>,
    rng: &Rng,
    call: &impl Fn(&P, &mut Rng) -> Call,
) -> Call {
    let mut plan = plan.clone();
    (later.first[0].apply)(&mut plan);
    (earlier.apply)(&mut plan);
    call(&plan, &mut rng.clone())
}

fn neighbours<P>(rules: &[Rule<P>]) -> Vec<(usize, usize)> {
    order(0, "", rules).neighbours()
}

/// A plan with one rule broken, or two, the number that must come out, and what was done.
pub struct Damaged<P> {
    pub plan: P,
    pub number: u32,
    pub note: String,
}

/// Breaks one rule, or two, by chance. The later one is broken first, so that it meets a valid plan.
pub fn by_chance<P>(rules: &[Rule<P>], rng: &mut Rng, mut plan: P) -> Damaged<P> {
    let first = rng.below(rules.len());
    let second = rng.between(first, rules.len() - 1);
    let mut note = format!("not so: {}", rules[first].name);
    let can_be = rules[first].can_be_with(&rules[second]) || !neighbours(rules).contains(&(first, second));
    if second > first && can_be {
        rules[second].break_by_chance(&mut plan, rng);
        note.push_str(&format!("; and not so: {}", rules[second].name));
    }
    rules[first].break_by_chance(&mut plan, rng);
    Damaged { plan, number: rules[first].number, note }
}

/// A change of a plan that leaves nothing to chance.
pub type Change<P> = fn(&mut P);
