//! Request 4 of document 02 on random plants: what the reader says of loops that
//! spend no time, and the generators come to each shape that it can go wrong at.

mod common;

use common::{records, refused, Shapes};
use model::diagram::read;
use model::examples;
use model::generate::{self, Random};
use model::records::{
    word, BRANCH, FUNCTION, HEAD, IT_CLOSE, IT_OPEN, KILLING_BRANCH, LOOP_EXIT, LP_CLOSE, LP_OPEN,
    TRIGGER,
};
use std::ops::Range;

/// A row by its first words.
#[derive(Clone, Copy)]
struct Row {
    kind: u16,
    alpha: u16,
    beta: u16,
}

impl Row {
    fn is_function(&self) -> bool {
        self.kind == FUNCTION
    }

    fn spends_time(&self) -> bool {
        self.is_function() && self.alpha > 0
    }
}

/// The rows of a file, whatever is off in it.
fn rows(bytes: &[u8]) -> Vec<Row> {
    let rows = records(bytes)
        .into_iter()
        .map(|(_, record)| Row {
            kind: word(record, 1),
            alpha: word(record, 2),
            beta: word(record, 3),
        })
        .skip_while(|row| (HEAD..=TRIGGER).contains(&row.kind));
    rows.collect()
}

/// A loop that is closed.
#[derive(Clone)]
struct Loop {
    open: usize,
    close: usize,
    spends_time: bool,
}

impl Loop {
    fn inside(&self) -> Range<usize> {
        self.open + 1..self.close
    }

    fn holds(&self, other: &Loop) -> bool {
        self.inside().contains(&other.open)
    }
}

/// The loops in one walk, by their opens: a FUNCTION's time is that of every loop
/// open there.
fn loops(rows: &[Row]) -> Vec<Loop> {
    let (mut open, mut closed) = (Vec::new(), Vec::new());
    for (number, row) in rows.iter().enumerate() {
        match row.kind {
            LP_OPEN => open.push(Loop {
                open: number,
                close: number,
                spends_time: false,
            }),
            LP_CLOSE => closed.extend(open.pop().map(|lp| Loop {
                close: number,
                ..lp
            })),
            _ if row.spends_time() => open.iter_mut().for_each(|lp| lp.spends_time = true),
            _ => {}
        }
    }
    closed.sort_by_key(|lp| lp.open);
    closed
}

/// A loop that is refused.
fn note_refused(shapes: &mut Shapes, rows: &[Row], loops: &[Loop], lp: &Loop) {
    let inside = &rows[lp.inside()];
    let has = |kind| inside.iter().any(|row| row.kind == kind);
    let functions = inside.iter().filter(|row| row.is_function());
    shapes.note("45, empty", inside.is_empty());
    shapes.note("45, a FUNCTION of α 0", has(FUNCTION));
    let lasts = functions.clone().any(|row| row.beta > 255);
    shapes.note("45, a FUNCTION that may last", lasts);
    shapes.note("45, no FUNCTION", !inside.is_empty() && !has(FUNCTION));
    shapes.note("45, an IT in it", has(IT_OPEN));
    shapes.note("45, a branch that kills in it", has(KILLING_BRANCH));
    shapes.note("45, an LE in it", has(LOOP_EXIT));
    let before = lp.open > 0 && rows[lp.open - 1].spends_time();
    shapes.note("45, time right before the open", before);
    let behind = rows[lp.close + 1].spends_time();
    shapes.note("45, time right behind the close", behind);
    let in_fine = loops.iter().any(|outer| outer.holds(lp));
    shapes.note("45 of an inner loop, time beside it", in_fine);
    let inner = loops.iter().any(|inner| lp.holds(inner));
    shapes.note("45 of an outer loop, its inner too", inner);
    let earlier = loops.iter().any(|other| other.close < lp.open);
    shapes.note("45 behind a loop with time", earlier);
    let mut later = loops.iter().filter(|other| other.open > lp.close);
    let later_fine = later.clone().any(|other| other.spends_time);
    shapes.note("45 before a loop with time", later_fine);
    let later_timeless = later.any(|other| !other.spends_time);
    shapes.note("45 before another without", later_timeless);
}

/// A loop that spends time, all of it at one row or more.
fn note_fine(shapes: &mut Shapes, rows: &[Row], loops: &[Loop], lp: &Loop) {
    let times: Vec<usize> = lp.inside().filter(|row| rows[*row].spends_time()).collect();
    let only = |row| times == [row];
    shapes.note("time at the first row alone", only(lp.open + 1));
    shapes.note("time at the last row alone", only(lp.close - 1));
    let low_byte = times.iter().any(|row| rows[*row].alpha & 0xFF > 0);
    shapes.note("time in the high byte alone", !low_byte);
    shapes.note(
        "one tick alone",
        times.iter().all(|row| rows[*row].alpha == 1),
    );
    let in_inner = |row: &usize| {
        let mut inner = loops.iter().filter(|inner| lp.holds(inner));
        inner.any(|inner| inner.inside().contains(row))
    };
    shapes.note("time in inner loops alone", times.iter().all(in_inner));
    let beside: Vec<_> = times.iter().filter(|row| !in_inner(row)).collect();
    let in_inners = beside.len() < times.len();
    shapes.note(
        "time in an inner loop and beside it",
        in_inners && !beside.is_empty(),
    );
    let first = times[0];
    let alone_behind = |kind| times.len() == 1 && rows[first - 1].kind == kind;
    shapes.note("time in an IT alone", alone_behind(IT_OPEN));
    shapes.note("time behind an IT alone", alone_behind(IT_CLOSE));
    shapes.note("time in a branch alone", alone_behind(BRANCH));
    shapes.note(
        "time in a killing branch alone",
        alone_behind(KILLING_BRANCH),
    );
    let timeless = lp
        .inside()
        .any(|row| rows[row].is_function() && rows[row].alpha == 0);
    shapes.note("time beside a FUNCTION of α 0", timeless);
}

/// What the walk says of an undamaged plant is what the reader says.
fn note_plant(shapes: &mut Shapes, bytes: &[u8]) {
    let rows = rows(bytes);
    let loops = loops(&rows);
    match loops.iter().find(|lp| !lp.spends_time) {
        Some(lp) => {
            assert_eq!(read(bytes), refused(45, lp.open as u32));
            note_refused(shapes, &rows, &loops, lp);
        }
        None => {
            assert!(read(bytes).is_ok());
            loops
                .iter()
                .for_each(|lp| note_fine(shapes, &rows, &loops, lp));
        }
    }
}

#[test]
fn loops_with_and_without_time() {
    let mut random = Random::new(70);
    let mut shapes = Shapes::default();
    for _ in 0..14_000 {
        note_plant(&mut shapes, &generate::timeless_diagram(&mut random));
    }
    shapes.assert_met(25);
}

/// The generators of plants give every loop its time, wherever that is.
#[test]
fn generated_loops_spend_time() {
    let mut random = Random::new(71);
    let mut shapes = Shapes::default();
    for number in 0..6_000 {
        let file = match number % 6 {
            0 => generate::diagram_up_to(&mut random, 12),
            1 => generate::killing_diagram(&mut random),
            2 => generate::lasting_diagram(&mut random, 30),
            3 => generate::looping_diagram(&mut random),
            4 if number % 60 == 4 => generate::crowded_diagram(&mut random),
            _ => generate::diagram(&mut random),
        };
        assert!(read(&file).is_ok());
        note_plant(&mut shapes, &file);
    }
    for shape in [
        "time at the first row alone",
        "time at the last row alone",
        "time in a branch alone",
        "time in inner loops alone",
        "time beside a FUNCTION of α 0",
    ] {
        assert!(shapes.times[shape] >= 25, "{shape} of {:?}", shapes.times);
    }
}

/// A damaged file is refused for a loop only where nothing else is off; else what
/// comes before 45 in the order stands, in rows behind the loop too.
#[test]
fn damaged_loops() {
    let mut random = Random::new(72);
    let mut shapes = Shapes::default();
    for _ in 0..80_000 {
        let bytes = generate::damaged_diagram(&mut random);
        let rows = rows(&bytes);
        let loops = loops(&rows);
        let timeless = loops.iter().find(|lp| !lp.spends_time);
        match (read(&bytes), timeless) {
            (Ok(_), timeless) => assert!(timeless.is_none()),
            (Err(found), Some(lp)) if found.number == 45 => {
                assert_eq!(found.value as usize, lp.open);
                shapes.note("45", true);
            }
            (Err(found), Some(lp)) if [7, 8, 9, 44].contains(&found.number) => {
                let behind = found.value as usize > lp.close;
                shapes.note(
                    &format!("{} behind a loop without time", found.number),
                    behind,
                );
            }
            (Err(found), Some(_)) if found.number == 6 => {
                let without = read(&bytes[..found.value as usize]);
                let timeless = without.is_err_and(|refused| refused.number == 45);
                shapes.note("6 of a loop without time", timeless);
            }
            (Err(found), _) => assert_ne!(found.number, 45),
        }
    }
    shapes.assert_met(25);
}

/// As many loops as may be open, the time of all of them in the last FUNCTION.
#[test]
fn deep_loops() {
    let deep = examples::deep_loops();
    assert_eq!(read(&deep), Ok(192));
    let mut timeless = deep.clone();
    let alpha = deep.len() - 4 - 12 * 4 - 4;
    assert_eq!(timeless[alpha], 1);
    timeless[alpha] = 0;
    assert_eq!(read(&timeless), refused(45, 0));
}
