//! A short run of every kind of case, which meets every refusal of the list, and with every call what it should meet: kills, boxes that are left,
//! files that are refused for their loops or boxes, each answer to a run of telegrams, each kind of row.

use compare::cases::KINDS;
use compare::met::Met;
use compare::run_case;

#[test]
fn the_proved_functions_answer_as_the_model_does() {
    let mut met = Met::default();
    for round in 0..400 {
        for kind in 0..KINDS.len() {
            if let Err(difference) = run_case(2026, kind, round, &mut met) {
                panic!("{difference}");
            }
        }
    }
    assert_eq!(met.missing(), [], "refusals that no call was answered with");
    assert_eq!(met.unseen(), [], "of {:?}", met.sights());
}
