//! Why classes are one and why they are apart: only outputs that another component
//! reads count. Document 02, 3/14.

mod common;

use common::{answers, check_drawings};
use pictures::component::Component;
use pictures::reasons::{apart, together};
use second::examples::lamps::{LISTED, UNREAD};
use second::fields::write;
use second::generator;
use second::instrument::Instrument;
use second::prng::Prng;
use second::reader::read;

fn components(file: &[u8]) -> (Instrument, Vec<Component>) {
    let instrument = read(file).expect("a good file").instrument;
    let components = Component::all(&instrument, &answers(file)).expect("fitting answers");
    (instrument, components)
}

#[test]
fn an_unread_and_a_listed_lamp() {
    check_drawings(&UNREAD);
    check_drawings(&LISTED);
    let (_, unread) = components(&UNREAD);
    let classes = &unread[0].classes;
    assert_eq!(classes.len(), 1);
    assert_eq!(together(&unread[0], &classes[0]), ["matching steps for node 1"]);
    assert!(!unread[0].is_seen(0) && unread[1].is_seen(0));
    let (_, listed) = components(&LISTED);
    let classes = &listed[0].classes;
    assert_eq!(together(&listed[0], &classes[0]), ["equal s0, matching steps for node 1"]);
    assert_eq!(apart(&listed[0], &classes[1], &classes[0]), "output s0");
}

/// Two classes that an output keeps apart: another component lists it, and its level
/// differs. Where steps do, all such outputs have equal levels.
#[test]
fn classes_are_kept_apart_by_read_outputs_only() {
    let (mut outputs, mut steps) = (0, 0);
    for seed in 0..600 {
        let file = write(&generator::instrument(&mut Prng::new(seed)));
        let (instrument, components) = components(&file);
        for component in &components {
            let table = &component.table;
            let others = (0..components.len()).filter(|&d| d != component.number);
            let listed: Vec<usize> =
                others.flat_map(|d| instrument.tables[d].inputs.clone()).collect();
            let differs = |a: usize, b: usize, signal: usize| {
                table.drives_high(a, signal) != table.drives_high(b, signal)
            };
            for (i, one) in component.classes.iter().enumerate() {
                for other in &component.classes[..i] {
                    let (a, b) = (one.name, other.name);
                    let reason = apart(component, one, other);
                    if let Some(signal) = reason.strip_prefix("output s") {
                        let signal = signal.parse().expect("a signal");
                        assert!(listed.contains(&signal) && differs(a, b, signal));
                        outputs += 1;
                    } else if reason == "steps" {
                        assert!(!listed.iter().any(|&signal| differs(a, b, signal)));
                        steps += 1;
                    }
                }
            }
        }
    }
    assert!(outputs > 50, "{outputs}");
    assert!(steps > 50, "{steps}");
}
