//! Elements of a definition of 001: by chance, with every field, all that must pass, and all that must not.

use super::definitions::{tag_at, Field, Form};
use super::nodes::{choice, edges, integer, short_text, shortest, text, Node};
use super::padded::padded_integers;
use super::rng::Rng;

/// An element with words for what it shows.
pub type Shown = (String, Node);

/// Any element of a definition; the optional fields are there or not.
pub fn by_chance(form: Form, rng: &mut Rng) -> Node {
    match form {
        Form::Integer => integer(rng),
        Form::Text if rng.chance(5) => text(rng),
        Form::Text => short_text(rng),
        Form::Choice(alternatives) => {
            let place = rng.below(alternatives.len());
            choice(tag_at(place), by_chance(alternatives[place].form, rng))
        }
        Form::Sequence(fields) => {
            let there: Vec<bool> = fields.iter().map(|field| !field.is_optional || rng.chance(60)).collect();
            Node::List(written(fields, |place| there[place], rng))
        }
    }
}

/// The fields of a SEQUENCE at the places that are wanted.
fn written(fields: &[Field], is_there: impl Fn(usize) -> bool, rng: &mut Rng) -> Vec<Node> {
    let places = (0..fields.len()).filter(|place| is_there(*place));
    places.map(|place| choice(tag_at(place), by_chance(fields[place].form, rng))).collect()
}

/// Every field of a SEQUENCE.
fn all_of(fields: &[Field], rng: &mut Rng) -> Vec<Node> {
    written(fields, |_| true, rng)
}

/// Elements that must pass: integers and texts of many lengths, every alternative, every set of optional fields, and
/// each of these in every field.
pub fn right(form: Form, rng: &mut Rng) -> Vec<Shown> {
    match form {
        Form::Integer => integers(rng),
        Form::Text => texts(rng),
        Form::Choice(_) => in_places(form, right, rng),
        Form::Sequence(fields) => {
            let mut all = sets_of(fields, rng);
            all.extend(in_places(form, right, rng));
            all
        }
    }
}

/// The elements of every alternative, or of every field among all the others.
fn in_places(form: Form, elements: fn(Form, &mut Rng) -> Vec<Shown>, rng: &mut Rng) -> Vec<Shown> {
    match form {
        Form::Integer | Form::Text => vec![],
        Form::Choice(alternatives) => {
            in_each(alternatives, elements, rng, |place, inside, _| choice(tag_at(place), inside))
        }
        Form::Sequence(fields) => in_each(fields, elements, rng, |place, inside, rng| {
            let mut nodes = all_of(fields, rng);
            nodes[place] = choice(tag_at(place), inside);
            Node::List(nodes)
        }),
    }
}

/// The elements of every field or alternative, each put into its place.
fn in_each(
    fields: &[Field],
    elements: fn(Form, &mut Rng) -> Vec<Shown>,
    rng: &mut Rng,
    put: impl Fn(usize, Node, &mut Rng) -> Node,
) -> Vec<Shown> {
    let mut all = Vec::new();
    for (place, field) in fields.iter().enumerate() {
        for (words, inside) in elements(field.form, rng) {
            all.push((format!("{}: {words}", field.name), put(place, inside, rng)));
        }
    }
    all
}

/// Integers of 1 to 8 bytes: the numbers at the edges of those that need so many, and some by chance.
fn integers(rng: &mut Rng) -> Vec<Shown> {
    let values = (1..=8).flat_map(edges).map(shortest).chain((0..8).map(|_| integer(rng)));
    values.map(|node| (format!("{:02X?}", node.bytes()), node)).collect()
}

/// Texts of 0, 1, 127 and 128 bytes, their lengths in the short form and in each long one.
fn texts(rng: &mut Rng) -> Vec<Shown> {
    let forms =
        [(0, 0), (1, 0), (127, 0), (0, 1), (1, 1), (127, 1), (128, 1), (128, 2), (1, 3), (128, 3), (0, 4)];
    let shown = |(length, form): (usize, usize)| {
        let words = format!("{length} bytes, the length in {} bytes", form + 1);
        (words, Node::Text(form, rng.bytes(length)))
    };
    forms.map(shown).to_vec()
}

/// A SEQUENCE with every set of its optional fields, from none to all.
fn sets_of(fields: &[Field], rng: &mut Rng) -> Vec<Shown> {
    let optional: Vec<usize> = (0..fields.len()).filter(|place| fields[*place].is_optional).collect();
    let mut all = Vec::new();
    for set in 0..1u32 << optional.len() {
        let is_there = |place: usize| match optional.iter().position(|other| *other == place) {
            Some(bit) => set >> bit & 1 == 1,
            None => true,
        };
        let names: Vec<&str> =
            (0..fields.len()).filter(|place| is_there(*place)).map(|place| fields[place].name).collect();
        all.push((format!("has {names:?}"), Node::List(written(fields, is_there, rng))));
    }
    all
}

/// Well-nested elements that are not what the definition says.
pub fn wrong(form: Form, rng: &mut Rng) -> Vec<Shown> {
    match form {
        Form::Integer => not_an_integer(rng),
        Form::Text => not_a_text(rng),
        Form::Choice(alternatives) => {
            let mut all = wrong_choices(alternatives, rng);
            all.extend(in_places(form, wrong, rng));
            all
        }
        Form::Sequence(fields) => {
            let mut all = not_a_sequence(fields, rng);
            all.extend(wrong_fields(fields, rng));
            all.extend(foreign_fields(fields, rng));
            all.extend(in_places(form, wrong, rng));
            all
        }
    }
}

/// Elements with one padded integer and nothing else that is wrong: in each place of the definition that has an integer.
pub fn padded(form: Form, rng: &mut Rng) -> Vec<Shown> {
    match form {
        Form::Integer => padded_integers(rng),
        _ => in_places(form, padded, rng),
    }
}

fn shown<const N: usize>(all: [(&str, Node); N]) -> Vec<Shown> {
    all.map(|(words, node)| (words.to_string(), node)).to_vec()
}

fn not_an_integer(rng: &mut Rng) -> Vec<Shown> {
    shown([
        ("a text for an integer", short_text(rng)),
        ("an integer in a list", Node::List(vec![integer(rng)])),
        ("an integer in a choice", choice(0xA0, integer(rng))),
    ])
}

fn not_a_text(rng: &mut Rng) -> Vec<Shown> {
    shown([
        ("an integer for a text", integer(rng)),
        ("a text in a list", Node::List(vec![short_text(rng)])),
        ("a text in a choice", choice(0xA0, short_text(rng))),
    ])
}

/// No alternative, one that is not there, and each without its tag, tagged twice, or in a list.
fn wrong_choices(alternatives: &[Field], rng: &mut Rng) -> Vec<Shown> {
    let mut all = shown([
        ("an integer for a choice", integer(rng)),
        ("a text for a choice", short_text(rng)),
        ("an empty list for a choice", Node::List(vec![])),
    ]);
    for (place, alternative) in alternatives.iter().enumerate() {
        let mut body = || by_chance(alternative.form, rng);
        let (name, tag) = (alternative.name, tag_at(place));
        all.push((format!("{name} without its tag"), body()));
        all.push((format!("{name} tagged twice"), choice(tag, choice(tag, body()))));
        all.push((format!("{name} in a list"), Node::List(vec![choice(tag, body())])));
        // 001 has no tag behind the last kind of identifier: B4 begins no element.
        if alternatives.len() < 20 {
            let behind = tag_at(alternatives.len());
            all.push((format!("{name} under {behind:02X}"), choice(behind, body())));
            all.push((format!("{name} under B3"), choice(0xB3, body())));
        }
    }
    all
}

/// Another type in the place of a SEQUENCE.
fn not_a_sequence(fields: &[Field], rng: &mut Rng) -> Vec<Shown> {
    let whole = |rng: &mut Rng| Node::List(all_of(fields, rng));
    shown([
        ("an integer for a sequence", integer(rng)),
        ("a text for a sequence", short_text(rng)),
        ("a sequence in a list", Node::List(vec![whole(rng)])),
        ("a sequence in a choice", choice(0xA0, whole(rng))),
        ("the first field alone, without the list", all_of(fields, rng).swap_remove(0)),
        ("a list with a text", Node::List(vec![short_text(rng)])),
    ])
}

/// Fields of the definition that are missing, stand twice or too late, or have no tag of their own.
fn wrong_fields(fields: &[Field], rng: &mut Rng) -> Vec<Shown> {
    let mut all = Vec::new();
    for (place, field) in fields.iter().enumerate() {
        let name = field.name;
        if !field.is_optional {
            let rest = written(fields, |other| other != place, rng);
            all.push((format!("no {name}"), Node::List(rest)));
            let optional = written(fields, |other| fields[other].is_optional, rng);
            all.push((format!("no {name}, nor others that must be there"), Node::List(optional)));
        }
        let again = choice(tag_at(place), by_chance(field.form, rng));
        let mut twice = all_of(fields, rng);
        twice.insert(place + 1, again.clone());
        all.push((format!("{name} twice"), Node::List(twice)));
        let mut late = all_of(fields, rng);
        late.push(again);
        all.push((format!("{name} once more at the end"), Node::List(late)));
        let mut untagged = all_of(fields, rng);
        untagged[place] = by_chance(field.form, rng);
        all.push((format!("{name} without its own tag"), Node::List(untagged)));
        if place > 0 {
            let mut exchanged = all_of(fields, rng);
            exchanged.swap(place - 1, place);
            all.push((format!("{} and {name} exchanged", fields[place - 1].name), Node::List(exchanged)));
        }
    }
    all
}

/// Elements among the fields that the definition does not have: behind the last tag, and without a tag.
fn foreign_fields(fields: &[Field], rng: &mut Rng) -> Vec<Shown> {
    let mut all = Vec::new();
    let behind = tag_at(fields.len());
    for (words, foreign) in [
        (format!("{behind:02X} with an integer"), choice(behind, integer(rng))),
        (format!("{behind:02X} with a text"), choice(behind, short_text(rng))),
        (format!("{behind:02X} with a list"), choice(behind, Node::List(vec![]))),
        ("B3 with a text".to_string(), choice(0xB3, short_text(rng))),
    ] {
        let required = written(fields, |place| !fields[place].is_optional, rng);
        all.push((
            format!("{words} behind the required"),
            Node::List([required, vec![foreign.clone()]].concat()),
        ));
        all.push((format!("{words} behind all"), Node::List([all_of(fields, rng), vec![foreign]].concat())));
    }
    for place in 0..=fields.len() {
        let loose =
            [("an integer", integer(rng)), ("a text", short_text(rng)), ("a list", Node::List(vec![]))];
        for (words, foreign) in loose {
            let mut nodes = all_of(fields, rng);
            nodes.insert(place, foreign);
            all.push((format!("{words} before field {place}"), Node::List(nodes)));
        }
    }
    all
}
