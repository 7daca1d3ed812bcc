//! Rows, moves, times and refusals in words.

use super::states::{Activity, DiagramState};
use super::Game;
use crate::boxes;
use crate::plant::{Count, Part, Plant};
use crate::structure::{branch_rows, branches, killers, owners};
use crate::times;
use effbd::{refusal, Move, Refusal};

/// What was asked of an end.
#[derive(Clone, Copy, PartialEq, Eq, Debug)]
pub enum Call {
    /// A move, of the panel.
    Offer(Move),
    /// A telegram handed to the controller; whether it was sent again.
    Hand { number: u32, again: bool },
    /// A telegram as another station would have sent it, handed to the controller.
    Foreign { number: u32 },
    /// So many bytes that are no telegram, handed to the controller.
    Noise { length: usize },
}

/// Ticks as seconds: `2.0 s`.
pub fn seconds(ticks: u64) -> String {
    format!("{} s", times::seconds(ticks))
}

/// `20 ticks (2.0 s)`.
pub fn ticks_words(ticks: u64) -> String {
    format!("{} ({})", number_of(ticks, "tick"), seconds(ticks))
}

/// `1 tick`, `2 ticks`.
pub fn number_of(number: u64, what: &str) -> String {
    let more = if number == 1 { "" } else { "s" };
    format!("{number} {what}{more}")
}

/// `a`, `a and b`, `a, b and c`.
pub fn list_words(mut words: Vec<String>) -> String {
    match words.pop() {
        None => "nothing".to_string(),
        Some(last) if words.is_empty() => last,
        Some(last) => format!("{} and {last}", words.join(", ")),
    }
}

/// A row without its number: a function's name, of others the keyword and the name.
pub fn title_words(plant: &Plant, row: usize) -> String {
    let found = &plant.rows[row];
    match (&found.part, &found.name) {
        (Part::Function(_), Some(name)) => name.clone(),
        (part, Some(name)) => format!("{} {name}", part.keyword()),
        (_, None) => plant.keyword(row),
    }
}

/// A row with its number: `pump-down (row 0)`.
pub fn row_words(plant: &Plant, row: usize) -> String {
    format!("{} (row {row})", title_words(plant, row))
}

/// These rows, at most four of them by name.
pub fn rows_words(plant: &Plant, rows: &[usize]) -> String {
    few_rows(rows, |row| row_words(plant, row))
}

/// What is said of these rows, of at most four of them.
fn few_rows(rows: &[usize], said: impl Fn(usize) -> String) -> String {
    let mut words: Vec<String> = rows.iter().take(4).map(|&row| said(row)).collect();
    if rows.len() > words.len() {
        words.push(format!("{} more", rows.len() - words.len()));
    }
    list_words(words)
}

/// A move: `step pump-down (row 0)`, `wait 20 ticks (2.0 s)`.
pub fn move_words(plant: &Plant, made: Move) -> String {
    match made {
        Move::Step(row) if usize::from(row) < plant.rows.len() => {
            format!("step {}", row_words(plant, usize::from(row)))
        }
        Move::Step(row) => format!("step row {row}"),
        Move::Wait(ticks) => format!("wait {}", ticks_words(u64::from(ticks))),
    }
}

/// A clock in its interval: `1.2 s of 2.0 to 5.0 s`.
pub fn clock_words(clock: u16, from: u16, to: u16) -> String {
    let tenths = |ticks: u16| format!("{}.{}", ticks / 10, ticks % 10);
    if from == to {
        format!("{} s of {} s", tenths(clock), tenths(to))
    } else {
        format!(
            "{} s of {} to {} s",
            tenths(clock),
            tenths(from),
            tenths(to)
        )
    }
}

/// What a row does now; nothing of an idle one.
pub fn activity_words(plant: &Plant, state: DiagramState, row: usize) -> String {
    let turns = state.turns(row);
    match (&plant.rows[row].part, state.activity(row)) {
        (Part::Function(function), Activity::Running) => {
            let (shortest, longest) = (function.shortest, function.longest);
            let clock = clock_words(state.clock(row), shortest, longest);
            format!("running {clock}")
        }
        (Part::Repeat { count }, Activity::Ready) => format!("ready, {turns} of {count} turns"),
        (Part::Repeat { count }, _) if turns > 0 => format!("turn {turns} of {count}"),
        (Part::End, Activity::Ready) => "reached".to_string(),
        (_, Activity::Idle) => String::new(),
        (_, activity) => activity.word().to_string(),
    }
}

/// A row with its number, and what it does now: `pump-down (row 0) ready`.
pub fn busy_words(plant: &Plant, state: DiagramState, row: usize) -> String {
    let words = activity_words(plant, state, row);
    format!("{} {words}", row_words(plant, row))
}

/// What a step does to the panel's state: to its row, to those that it kills or makes ready or done, to the items; of a FUNCTION's also the
/// transition that it fires. A wait only lets time pass.
pub fn effect_words(game: &Game, made: Move, before: &[u16], after: &[u16]) -> Option<String> {
    let Move::Step(row) = made else {
        return None;
    };
    let fires = game.fires(made, before);
    let (plant, before, after) = (&game.plant, game.reading(before), game.reading(after));
    let row = usize::from(row);
    let own = step_words(plant, row, before, after);
    let mut words = vec![match fires {
        None => own,
        Some(number) => format!("{own}, fires transition {number}"),
    }];
    words.extend(exit_words(plant, row, before));
    words.extend(kill_words(plant, row, before, after));
    let mut ready = became(before, after, Activity::Ready);
    let end = ready.pop_if(|row| plant.rows[*row].part == Part::End);
    for (rows, said) in [
        (ready, "ready now"),
        (became(before, after, Activity::Done), "done now"),
    ] {
        if !rows.is_empty() {
            words.push(format!("{said}: {}", rows_words(plant, &rows)));
        }
    }
    words.extend(end.map(|_| "the end is reached".to_string()));
    words.extend(changed_counts(plant, before, after));
    Some(words.join("; "))
}

/// The rows that have an activity and had another before.
fn became(before: DiagramState, after: DiagramState, activity: Activity) -> Vec<usize> {
    let rows = 0..after.plant.rows.len();
    rows.filter(|&row| after.activity(row) == activity && before.activity(row) != activity)
        .collect()
}

/// What stood in the box that an EXIT's step leaves.
fn exit_words(plant: &Plant, stepped: usize, before: DiagramState) -> Option<String> {
    let boxed = boxes::left(plant, stepped)?;
    let others = boxed.cleared().filter(|row| *row != stepped);
    Some(cleared_words(plant, before, others))
}

/// What of these rows was not idle, and is now.
fn cleared_words(plant: &Plant, before: DiagramState, rows: impl Iterator<Item = usize>) -> String {
    let cleared: Vec<usize> = rows.filter(|row| before.busy(*row)).collect();
    let cleared = few_rows(&cleared, |row| busy_words(plant, before, row));
    format!("cleared: {cleared}")
}

/// What a step killed, if a killing branch is done now: the other branches of its AND, with what stood in them.
fn kill_words(
    plant: &Plant,
    stepped: usize,
    before: DiagramState,
    after: DiagramState,
) -> Option<String> {
    let done = became(before, after, Activity::Done);
    let mut killers = killers(plant).into_iter();
    let and = killers.find(|killer| done.contains(&killer.branch))?.and;
    let branches = branches(plant, and).into_iter();
    let branches = branches.map(|branch| branch_rows(plant, branch));
    let others = branches.filter(|rows| !rows.contains(&stepped));
    let cleared = cleared_words(plant, before, others.flatten());
    let and = row_words(plant, and);
    Some(format!("kills the other branches of {and}; {cleared}"))
}

/// What a step does to its own row.
fn step_words(plant: &Plant, row: usize, before: DiagramState, after: DiagramState) -> String {
    let turns = after.turns(row);
    match &plant.rows[row].part {
        Part::Function(_) if after.activity(row) == Activity::Running => "starts".to_string(),
        Part::Function(_) => "ends".to_string(),
        Part::And => "its branches begin".to_string(),
        Part::EndAnd => "its branches join".to_string(),
        Part::Branch { .. } => "chosen".to_string(),
        Part::Repeat { count } if turns > before.turns(row) => {
            format!("turn {turns} of {count} begins")
        }
        Part::Repeat { count } => format!("all {count} turns are made"),
        Part::EndRepeat | Part::EndLoop => "goes back".to_string(),
        Part::Loop => "a round begins".to_string(),
        Part::ExitLoop => "leaves its loop, all of which goes idle".to_string(),
        Part::Box => "its scenario begins".to_string(),
        Part::ExitTo { .. } => left_words(plant, row),
        _ => "passes on".to_string(),
    }
}

/// The box that an EXIT leaves.
fn left_words(plant: &Plant, exit: usize) -> String {
    let open = boxes::left(plant, exit).map(|boxed| row_words(plant, boxed.open));
    format!("leaves {}", open.unwrap_or("its box".to_string()))
}

/// Copies of triggers that are listed of many, at most.
pub const MOST_COPIES: usize = 8;

/// All of these but the copies behind the first few, and how many are left out.
pub fn few_copies<T>(listed: Vec<T>, is_copy: impl Fn(&T) -> bool) -> (Vec<T>, usize) {
    let (whole, mut copies) = (listed.len(), 0);
    let few = listed.into_iter().filter(|one| {
        copies += usize::from(is_copy(one));
        !is_copy(one) || copies <= MOST_COPIES
    });
    let few: Vec<T> = few.collect();
    let left_out = whole - few.len();
    (few, left_out)
}

/// The counts that differ: `oil 4 -> 2`, `door@fan 0 -> 1`.
fn changed_counts(plant: &Plant, before: DiagramState, after: DiagramState) -> Vec<String> {
    let both = before.counts().zip(after.counts());
    let changed = both.filter(|((_, had), (_, has))| had != has);
    let changed = changed.map(|((count, had), (_, has))| (count, had, has));
    let (told, more) = few_copies(changed.collect(), |(count, ..)| count.is_copy());
    let told = told.into_iter().map(|(count, had, has)| {
        let name = plant.count_name(count);
        format!("{name} {had} -> {has}")
    });
    let more = (more > 0).then(|| number_of(more as u64, "more count"));
    told.chain(more).collect()
}

/// A refusal in words, with its number. The game is as it was when the call was made: a refusal alters nothing.
pub fn refusal_words(game: &Game, call: Call, refused: Refusal) -> String {
    let words = match call {
        Call::Offer(made) => offer_refused(game, made, refused),
        Call::Hand { number, again } => hand_refused(number, again, refused),
        Call::Foreign { number } => {
            let (other, own) = (refused.value, game.station);
            format!("telegram {number} of station {other} came, this is station {own}")
        }
        Call::Noise { length } => format!("{length} bytes came that are no telegram"),
    };
    format!("{words} (refusal {})", refused.number)
}

/// Why the panel does not make a move.
fn offer_refused(game: &Game, made: Move, refused: Refusal) -> String {
    let plant = &game.plant;
    let row = usize::from(made.argument());
    let name = match made {
        Move::Step(_) if row < plant.rows.len() => row_words(plant, row),
        _ => String::new(),
    };
    match refused.number {
        refusal::CODE_OFF => "a wait has at least 1 tick".to_string(),
        refusal::NOT_STANDING => not_standing(game, row),
        refusal::ITEM_SHORT => item_short(game, row, refused.value as usize),
        refusal::TICKS_LACKING => {
            let lacking = ticks_words(u64::from(refused.value));
            format!("{name} may not end yet: {lacking} lacking")
        }
        refusal::SUM_TOO_LARGE => sum_too_large(game, row, refused.value as usize),
        refusal::WAIT_HELD => wait_held(game),
        refusal::COUNT_FULL => format!("the panel has sent all {} telegrams", refused.value),
        _ => refused.words().to_string(),
    }
}

/// Why a row does not step.
fn not_standing(game: &Game, row: usize) -> String {
    let plant = &game.plant;
    let Some(found) = plant.rows.get(row) else {
        let last = plant.rows.len() - 1;
        return format!("there is no row {row}: the last is row {last}");
    };
    let name = row_words(plant, row);
    let owner = owners(plant)[row];
    match &found.part {
        Part::End => format!("{name} is never stepped"),
        Part::Or => {
            let branches = rows_words(plant, &branches(plant, row));
            format!("{name} is not stepped itself: one of its branches is chosen: {branches}")
        }
        Part::EndAnd => format!("{name} waits for its branches: {}", undone(game, row)),
        Part::Branch { kills } => match owner {
            Some(open) if plant.rows[open].part == Part::Or => {
                let open = row_words(plant, open);
                format!("{name} cannot be chosen: {open} is not ready")
            }
            _ => {
                let others = if *kills {
                    " and the other branches"
                } else {
                    ""
                };
                format!("{name} is never stepped: its and begins it, its last row ends it{others}")
            }
        },
        Part::Outlet => {
            let exits =
                (0..plant.rows.len()).filter(|&exit| boxes::outlet(plant, exit) == Some(row));
            let exits = rows_words(plant, &exits.collect::<Vec<usize>>());
            format!("{name} is never stepped: {exits} leads to it")
        }
        _ => format!("{name} is idle: it is not its turn"),
    }
}

/// The branches of the AND with this close that are not done.
fn undone(game: &Game, close: usize) -> String {
    let (plant, state) = (&game.plant, game.diagram_state());
    let around = owners(plant);
    // The open before the close that stands in the same construct: the last one is the close's own.
    let open =
        (0..close).rfind(|&row| plant.rows[row].part.opens() && around[row] == around[close]);
    let mut rows = branches(plant, open.unwrap_or(close));
    rows.retain(|&row| state.activity(row) != Activity::Done);
    let verb = if rows.len() == 1 { "is" } else { "are" };
    format!("{} {verb} not done", rows_words(plant, &rows))
}

/// An item that a start needs more of: of a trigger the row's own copy.
fn item_short(game: &Game, row: usize, item: usize) -> String {
    let plant = &game.plant;
    let (take, _) = plant.take_and_give(row, item);
    let count = match plant.items[item].trigger {
        true => Count::Copy { item, row },
        false => Count::Item(item),
    };
    let (name, has) = (plant.count_name(count), game.diagram_state().count(count));
    format!(
        "{} cannot start: it takes {take} of {name}, which has {has}",
        row_words(plant, row)
    )
}

/// An item that an end would give too much to: of a trigger the first copy that is full.
fn sum_too_large(game: &Game, row: usize, item: usize) -> String {
    let (plant, state) = (&game.plant, game.diagram_state());
    let (_, give) = plant.take_and_give(row, item);
    let full = |count: &Count| state.count(*count).checked_add(give).is_none();
    let copy = plant.items[item]
        .trigger
        .then(|| plant.copies(item).find(full));
    let count = copy.flatten().unwrap_or(Count::Item(item));
    let (name, has) = (plant.count_name(count), state.count(count));
    format!(
        "{} cannot end: it gives {give} to {name}, which has {has} and holds at most {}",
        row_words(plant, row),
        u16::MAX
    )
}

/// What holds a wait: rows that can step now, or functions that must end sooner.
fn wait_held(game: &Game) -> String {
    let (plant, longest) = (&game.plant, game.longest_wait());
    let due = game.due_within(longest);
    if longest > 0 {
        let (due, longest) = (rows_words(plant, &due), ticks_words(u64::from(longest)));
        return format!("{due} must end within {longest}, the longest wait accepted now");
    }
    let mut reasons = Vec::new();
    let ready = game.ready_to_step();
    if !ready.is_empty() {
        reasons.push(format!("{} can be stepped now", rows_words(plant, &ready)));
    }
    if !due.is_empty() {
        reasons.push(format!("{} must end now", rows_words(plant, &due)));
    }
    format!("no time passes: {}", list_words(reasons))
}

/// Why the controller does not take a telegram of its station.
fn hand_refused(number: u32, again: bool, refused: Refusal) -> String {
    let taken = refused.value;
    match refused.number {
        refusal::NUMBER_PAST if again => {
            format!("telegram {number} comes again: it was taken already")
        }
        refusal::NUMBER_PAST => {
            format!("telegram {number} comes late: its copy was taken already")
        }
        refusal::NUMBER_AHEAD if number == taken.saturating_add(2) => {
            format!(
                "telegram {number} is early: telegram {} has not come yet",
                taken + 1
            )
        }
        refusal::NUMBER_AHEAD => format!(
            "telegram {number} is early: telegrams {} to {} have not come yet",
            taken.saturating_add(1),
            number.saturating_sub(1)
        ),
        _ => format!("telegram {number}: {}", refused.words()),
    }
}

#[cfg(test)]
mod tests {
    use super::*;

    /// The one refusal of the table's 21 to 33 that play is too short to meet.
    #[test]
    fn the_count_is_full() {
        let file = include_bytes!("../../../examples/a.dia").to_vec();
        let plant = Plant::read(&file).expect("an accepted example");
        let mut game = Game::new(plant, file, 7).expect("an accepted example");
        game.panel.count = u32::MAX;
        let made = Move::Step(0);
        let refused = game.tried(made).expect_err("a full count");
        let words = refusal_words(&game, Call::Offer(made), refused);
        let full = "the panel has sent all 4294967295 telegrams (refusal 27)";
        assert_eq!(words, full);
    }
}
