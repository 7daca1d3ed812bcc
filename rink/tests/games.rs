//! Games of both bus ends: lessons with their stored output, random games, the terminal on piped input, scripts that are wrong.

use effbd::{Move, STEP, WAIT};
use model::generate::{crowded_diagram, diagram, killing_diagram, lasting_trigger_diagram, Random};
use rink::boxes;
use rink::plant::{Count, Function, Item, Part, Plant, Row, Use};
use rink::play::{
    parse, screen, scripted, terminal, Activity, Command, Game, Outcome, Then, Which,
};
use rink::structure;
use std::collections::{BTreeMap, BTreeSet};

const STATION: u16 = 7;
/// Characters of a line, at most.
const COLUMNS: usize = 100;

/// The example of a plant, with names.
fn pump_down() -> Game {
    let file = include_bytes!("../../examples/pump-down-and-defrost.dia").to_vec();
    let mut plant = Plant::read(&file).expect("an accepted example");
    plant.title = Some("pump-down and defrost".to_string());
    for (row, name) in [
        (0, "pump-down"),
        (1, "circulate"),
        (4, "stop order"),
        (7, "defrost rounds"),
        (10, "drain coil"),
        (11, "hot gas"),
        (13, "fan stop"),
        (15, "settle"),
        (19, "one compressor"),
        (21, "two compressors"),
        (23, "equalise"),
        (26, "refill"),
    ] {
        plant.rows[row].name = Some(name.to_string());
    }
    let items = ["compressor order", "charge", "meltwater", "stop button"];
    for (item, name) in plant.items.iter_mut().zip(items) {
        item.name = name.to_string();
    }
    Game::new(plant, file, STATION).expect("an accepted example")
}

fn function(name: &str, shortest: u16, longest: u16, uses: &[(u16, u16, u16)]) -> Row {
    let uses = uses
        .iter()
        .map(|&(item, take, give)| Use { item, take, give });
    Row {
        part: Part::Function(Function {
            shortest,
            longest,
            uses: uses.collect(),
        }),
        name: Some(name.to_string()),
    }
}

fn row(part: Part, name: &str) -> Row {
    let name = Some(name.to_string()).filter(|name| !name.is_empty());
    Row { part, name }
}

/// A name that ends in `!` is a trigger's.
fn game(items: &[(&str, u16)], rows: Vec<Row>) -> Game {
    let items = items.iter().map(|&(name, count)| Item {
        name: name.trim_end_matches('!').to_string(),
        count,
        trigger: name.ends_with('!'),
    });
    let plant = Plant {
        title: None,
        items: items.collect(),
        rows,
    };
    let file = plant.file().expect("a small plant");
    Game::new(plant, file, STATION).expect("a right plant")
}

/// A plant in which every refusal can be met.
fn feeding() -> Game {
    game(
        &[("oil", 1), ("brine", 65_535)],
        vec![
            row(Part::And, "start-up"),
            row(Part::Branch { kills: false }, ""),
            function("fill", 2, 5, &[(0, 1, 0)]),
            row(Part::Branch { kills: false }, ""),
            function("pump", 10, 20, &[]),
            row(Part::EndAnd, ""),
            row(Part::Or, "choose"),
            row(Part::Branch { kills: false }, "by-air"),
            function("fan", 0, 0, &[(0, 2, 0)]),
            row(Part::Branch { kills: false }, "by-brine"),
            function("feed", 1, 3, &[(1, 0, 1)]),
            row(Part::EndOr, ""),
            row(Part::End, ""),
        ],
    )
}

/// A trigger that three rows take, two of them of one name, one that nobody takes, and a plain item.
fn ordered() -> Game {
    game(
        &[("door!", 65_534), ("oil", 1), ("bell!", 3)],
        vec![
            function("watch", 0, 0, &[(0, 0, 1), (2, 0, 1)]),
            function("fan", 0, 0, &[(0, 1, 1)]),
            function("fan", 0, 0, &[(0, 1, 0), (1, 2, 0)]),
            function("pump", 0, 0, &[(0, 1, 0)]),
            row(Part::End, ""),
        ],
    )
}

/// That a lesson prints what is stored; what it printed stands in a file where it differs.
fn plays_as_stored(game: Game, script: &str, name: &str, stored: &str) {
    let printed = scripted(game, script).unwrap_or_else(|fault| panic!("{fault}"));
    fits(&printed);
    if printed == stored {
        return;
    }
    let path = format!("{}/{name}", env!("CARGO_TARGET_TMPDIR"));
    std::fs::write(&path, &printed).expect("a folder for tests");
    let mut lines = (1..).zip(printed.lines().zip(stored.lines()));
    let differing = lines.find(|(_, (printed, stored))| printed != stored);
    panic!("not as stored, line, printed and stored: {differing:?}; all of it: {path}");
}

/// That no line is too wide, and that the text is plain.
fn fits(text: &str) {
    for line in text.lines() {
        assert!(line.chars().count() <= COLUMNS, "too wide: {line}");
        assert!(!line.chars().any(char::is_control), "not plain: {line:?}");
    }
}

#[test]
fn lost_repeated_and_late_telegrams() {
    let script = include_str!("games/bus.script");
    let stored = include_str!("games/bus.txt");
    plays_as_stored(pump_down(), script, "bus.txt", stored);
}

#[test]
fn every_refusal_of_play() {
    let script = include_str!("games/refusals.script");
    let stored = include_str!("games/refusals.txt");
    plays_as_stored(feeding(), script, "refusals.txt", stored);
    for number in [21, 22, 23, 24, 25, 26, 30, 31, 32, 33] {
        let words = format!("(refusal {number})");
        let joined = stored.replace("\n    ", " ");
        assert!(joined.contains(&words), "no {words}");
    }
}

/// The game of a text's plant.
fn of_text(text: &str) -> Game {
    let (file, plant) = rink::text::make(text).expect("an accepted text");
    Game::new(plant, file, STATION).expect("an accepted text")
}

/// The shipped plant with a trigger, by its names.
#[test]
fn an_order_to_everyone() {
    let game = of_text(include_str!("../../examples/door-open.plant"));
    let script = include_str!("games/door.script");
    let stored = include_str!("games/door.txt");
    plays_as_stored(game, script, "door.txt", stored);
}

/// The shipped plant with a branch that kills, by its names.
#[test]
fn a_pressure_trip() {
    let game = of_text(include_str!("../../examples/pressure-trip.plant"));
    let script = include_str!("games/trip.script");
    let stored = include_str!("games/trip.txt");
    plays_as_stored(game, script, "trip.txt", stored);
}

/// The shipped plant with a box, by its names.
#[test]
fn a_pull_down() {
    let game = of_text(include_str!("../../examples/pull-down.plant"));
    let script = include_str!("games/box.script");
    let stored = include_str!("games/box.txt");
    plays_as_stored(game, script, "box.txt", stored);
}

/// What an EXIT clears is told: another EXIT that was ready, an IT in its last turn, an inner box; and when nothing was left.
#[test]
fn exits_in_words() {
    let after = |scenario: &str, script: &str| {
        let outlets = "outlet cold\nfunction fan 1..2\noutlet trip\nend box\nend\n";
        let text = format!("box store\n{scenario}{outlets}");
        let script = format!("auto on\nstep store\n{script}\nexpect agree\n");
        let printed = scripted(of_text(&text), &script);
        let printed = printed.unwrap_or_else(|fault| panic!("{fault}\n{}", fault.output));
        printed.replace("\n    ", " ")
    };
    let told = |printed: &str, words: &str| {
        let words = format!("leaves box store (row 0); cleared: {words}");
        assert!(printed.contains(&words), "no {words} in\n{printed}");
    };
    let both = "and\nbranch\nexit to trip\nbranch\nexit to cold\nend and\n";
    let printed = after(both, "step 1\nstep exit to cold\nexpect ready fan");
    told(
        &printed,
        "exit to trip (row 3) ready; ready now: fan (row 8)",
    );
    assert!(printed.contains("step box store (row 0): its scenario begins; ready now: and (row 1)"));
    assert!(printed.contains("exit to cold (row 5): box left"));
    let printed = after(both, "step 1\nstep exit to trip\nexpect ready end box");
    told(
        &printed,
        "exit to cold (row 5) ready; ready now: end box (row 10)",
    );
    let turns = "and\nbranch\nexit to cold\nbranch\nrepeat 2 turns\nfunction pump 3..5\nend repeat\nexit to trip\nend and\n";
    let script = "step 1\nstep turns\nstep pump\nwait 3\nexpect refused 26\nstep exit to cold";
    let printed = after(turns, script);
    let words = "repeat turns (row 5) turn 1 of 2 and pump (row 6) running 0.0 s of 0.3 to 0.5 s";
    told(&printed, &format!("{words}; ready now: fan (row 11)"));
    let inner = "box inner\nor\nbranch\nexit to one\nbranch\nexit to other\nend or\noutlet one\nexit to trip\noutlet other\nend box\nexit to cold\n";
    let script = "step inner\nstep 3\nstep exit to one\nstep exit to trip";
    let printed = after(inner, script);
    told(&printed, "nothing; ready now: end box (row 16)");
    assert!(printed.contains("leaves box inner (row 1); cleared: nothing; ready now: exit to trip"));
    let printed = after(
        inner,
        "step one\nexpect refused 22\nstep trip\nexpect refused 22",
    );
    for (outlet, exit) in [
        ("outlet one (row 8)", "exit to one (row 4)"),
        ("outlet trip (row 15)", "exit to trip (row 9)"),
    ] {
        let words = format!("{outlet} is never stepped: {exit} leads to it");
        assert!(printed.contains(&words), "no {words} in\n{printed}");
    }
}

/// What a kill clears is told, whatever row ends the branch: an IT that has made its turns, an LE, a close; and when nothing was left.
#[test]
fn kills_in_words() {
    let pump = "branch\nfunction pump 5..9\n";
    let after = |last: &str, script: &str| {
        let text = format!("and plant\n{pump}killing branch trip\n{last}end and\nend\n");
        let script = format!("auto on\nstep plant\n{script}\nexpect done trip\nexpect agree\n");
        let printed = scripted(of_text(&text), &script);
        let printed = printed.unwrap_or_else(|fault| panic!("{fault}\n{}", fault.output));
        printed.replace("\n    ", " ")
    };
    let kills = "kills the other branches of and plant (row 0); cleared: ";
    let turns = "repeat 2 turns\nend repeat\n";
    let printed = after(turns, "step turns\nstep 5\nstep turns\nstep 5\nstep turns");
    let words =
        format!("all 2 turns are made; {kills}pump (row 2) ready; done now: branch (row 1)");
    assert!(printed.contains(&words), "{printed}");
    assert!(printed.contains("fires, turns: turns done, killing the other branches of plant"));
    let left =
        "loop\nand guard\nbranch\nexit loop\nbranch\nfunction watch 1..2\nend and\nend loop\n";
    let printed = after(left, "step pump\nstep 4\nstep guard\nstep watch\nstep 7");
    let words = format!(
        "leaves its loop, all of which goes idle; {kills}pump (row 2) running 0.0 s of 0.5 to 0.9 s; done now: "
    );
    assert!(printed.contains(&words), "{printed}");
    assert!(printed.contains("loop left, killing the other branches of plant"));
    let joined = "and inner\nbranch\nfunction watch 7..9\nbranch\nend and\n";
    let script = "step inner\nstep pump\nstep watch\nwait 7\nstep pump\nstep watch\nstep 8";
    let printed = after(joined, script);
    let words = format!("its branches join; {kills}nothing; done now: killing branch trip (row 3)");
    assert!(printed.contains(&words), "{printed}");
}

/// What a give reaches, and the copy that is full, are told by the names of the copies.
#[test]
fn copies_in_words() {
    let script = "step 0\nstep 0\nstep 1\nstep 1\nexpect refused 25\nexpect count door@1 65534\n";
    let printed = scripted(ordered(), script).expect("a right script");
    let printed = printed.replace("\n    ", " ");
    for words in [
        "door@1 65534 -> 65535; door@2 65534 -> 65535; door@pump 65534 -> 65535\n",
        "oil 1, door@1 65535, door@2 65535, door@pump 65535",
        "starts, fires transition 2; door@1 65535 -> 65534\n",
        // Its own copy has room again, the others do not.
        "fan (row 1) cannot end: it gives 1 to door@2, which has 65535 and holds at most 65535",
    ] {
        assert!(printed.contains(words), "no {words:?} in\n{printed}");
    }
    assert!(!printed.contains("bell"), "{printed}");
}

/// Of many copies the first are shown, and how many there are besides.
#[test]
fn many_copies() {
    let file = model::examples::longest_net();
    let new = || {
        let plant = Plant::read(&file).expect("an accepted file");
        Game::new(plant, file.clone(), STATION).expect("an accepted file")
    };
    let lines = screen(&new(), false);
    assert!(lines.len() < 60, "{} lines", lines.len());
    let printed = lines.join("\n");
    assert_eq!(
        printed.matches("and 1000 counts of triggers").count(),
        2,
        "{printed}"
    );
    let lines = screen(&new(), true);
    assert!(lines.len() > 1_000, "{} lines", lines.len());
    let printed =
        scripted(new(), "1\nwait 1\n1\ndeliver all\nexpect agree").expect("a right script");
    fits(&printed);
    assert!(printed.lines().count() < 80, "{printed}");
    assert!(printed.contains("1000 more counts"), "{printed}");
}

/// A random game's seed and file, printed where it fails.
struct Case {
    seed: u64,
    file: Vec<u8>,
    lines: Vec<String>,
}

impl Drop for Case {
    fn drop(&mut self) {
        if std::thread::panicking() {
            eprintln!("seed {}, file {:?}", self.seed, self.file);
            eprintln!("commands:\n{}", self.lines.join("\n"));
        }
    }
}

/// A line that a person might type, sense or nonsense.
fn line(random: &mut Random, game: &Game) -> String {
    let rows = game.plant().rows.len();
    let near = (game.sent_count() as usize).saturating_sub(3);
    let number = near + random.below(5);
    match random.below(32) {
        0..=9 => format!("{}", 1 + random.below(game.choices().len() + 1)),
        10 | 11 => format!("step {}", random.below(rows + 2)),
        12 => format!("step {}", game.plant().row_name(random.below(rows))),
        13 | 14 => format!("wait {}", random.word()),
        15 => format!("wait {}.{}s", random.below(30), random.below(10)),
        16 | 17 => "deliver".to_string(),
        18 => format!("deliver {number}"),
        19 => "deliver all".to_string(),
        20 => format!("lose {number}"),
        21 => format!("repeat {number}"),
        22 => format!("delay {number}"),
        23 => random
            .pick(&["lose", "delay", "repeat", "resend"], "")
            .to_string(),
        24 => random
            .pick(&["auto on", "auto off", "auto"], "")
            .to_string(),
        25 => random.pick(&["noise", "foreign"], "").to_string(),
        26 => format!("foreign {number}"),
        27 => random
            .pick(&["show", "all", "moves", "log", "help"], "")
            .to_string(),
        28 if random.chance(50) => random_count(random, game),
        28 => random
            .pick(&["expect agree", "expect taken", "say so", "# so"], "")
            .to_string(),
        29 if random.chance(10) => "restart".to_string(),
        29 => format!("expect behind {}", random.below(3)),
        30 => String::from_utf8_lossy(&random.bytes(6)).replace(['\n', '\r'], " "),
        _ => random
            .pick(&["", "step", "wait x", "Quit!", "deliver deliver"], "")
            .to_string(),
    }
}

/// The value of a count, or of none.
fn random_count(random: &mut Random, game: &Game) -> String {
    let counts: Vec<Count> = game.plant().counts().collect();
    let at = random.below(counts.len() + 1);
    counts
        .get(at)
        .map_or("expect count nothing 0".to_string(), |count| {
            let (name, value) = (
                game.plant().count_name(*count),
                game.diagram_state().count(*count),
            );
            format!("expect count {name} {value}")
        })
}

/// That the copies' words are those of the model, in the panel's state and the controller's.
fn copies_stand_as_the_model_says(game: &Game, file: &[u8]) {
    let diagram = model::diagram::parse(file).expect("an accepted file");
    let (panel, net) = (game.diagram_state(), game.net_state());
    let mut counts = 0;
    for count in game.plant().counts() {
        let word = match count {
            Count::Item(item) => diagram.item_word(item),
            Count::Copy { item, row } => diagram.taken_word(item, row),
        };
        assert_eq!(panel.count(count), panel.words[word]);
        let home = rink::net::home(game.plant(), word);
        assert_eq!(home, rink::net::Home::Count(count));
        assert!(game.behind() > 0 || net.mark(word) == panel.count(count));
        counts += 1;
    }
    assert_eq!(3 * diagram.rows.len() + counts, diagram.state_length());
}

/// That the ends agree just where the model's image says so, and always where the controller is not behind.
fn agrees_as_the_model_says(game: &Game, file: &[u8]) {
    let image = model::image::image(file, game.diagram_state().words);
    let same = image.as_deref() == Some(game.net_state().words);
    assert_eq!(game.agree(), same);
    assert!(same || game.behind() > 0);
}

/// That the moves listed are those that the model accepts.
fn lists_what_the_model_accepts(game: &Game, file: &[u8]) {
    let accepts = |code, argument| {
        let mut state = game.diagram_state().words.to_vec();
        model::diagram_step::step(file, &mut state, code, argument).is_ok()
    };
    let choices = game.choices();
    for choice in &choices {
        assert!(accepts(choice.made.code(), choice.made.argument()));
    }
    for row in 0..game.plant().rows.len() as u16 {
        let listed = choices.iter().any(|choice| choice.made == Move::Step(row));
        assert_eq!(listed, accepts(STEP, row), "row {row}");
    }
    let longest = game.longest_wait();
    assert!(longest == 0 || accepts(WAIT, longest));
    assert!(longest == u16::MAX || !accepts(WAIT, longest + 1));
}

/// Of each telegram the transition that the panel said its move fires; how many of these the controller fired.
#[derive(Default)]
struct Said {
    of_telegram: BTreeMap<u32, usize>,
    fired: usize,
}

impl Said {
    /// Hears the calls of the last command: the controller fires what the panel said, which is something just of FUNCTIONs. Returns these.
    fn hear(&mut self, game: &Game) -> Vec<usize> {
        let mut heard = Vec::new();
        let mut outcomes = game.outcomes().iter().peekable();
        while let Some(outcome) = outcomes.next() {
            let fires = outcomes.peek().and_then(|next| match next {
                Outcome::Fires(number) => Some(*number),
                _ => None,
            });
            match (outcome, fires) {
                (Outcome::Accepted(number), Some(said)) => {
                    self.of_telegram.insert(*number, said);
                }
                (Outcome::Accepted(number), None) => {
                    self.of_telegram.remove(number);
                }
                (Outcome::Taken(number), fired) => {
                    let said = self.of_telegram.get(number).copied();
                    let fired = fired.filter(|fired| of_function(game, *fired));
                    assert_eq!(said, fired, "telegram {number}");
                    heard.extend(fired);
                }
                _ => {}
            }
        }
        self.fired += heard.len();
        heard
    }
}

/// Whether a transition of the net is a FUNCTION's.
fn of_function(game: &Game, transition: usize) -> bool {
    let row = usize::from(game.net().transitions[transition].label);
    matches!(game.plant().rows[row].part, Part::Function(_))
}

/// Plays one line; whether it was understood and went as it should.
fn plays(game: &mut Game, line: &str, said: &mut Said) -> bool {
    let Ok(Some(command)) = parse(game.plant(), line) else {
        return false;
    };
    let picked = match command {
        Command::Pick(number) => (1..=game.choices().len()).contains(&number),
        _ => false,
    };
    let Ok(report) = game.act(&command) else {
        return false;
    };
    assert!(!report.lines.is_empty());
    // Whatever holds a wait has a name.
    let told = report.lines.join(" ");
    assert!(!told.contains("passes: nothing") && !told.contains("nothing must end"));
    if picked {
        assert!(matches!(game.outcomes()[0], Outcome::Accepted(_)), "{line}");
    }
    if report.then != Then::Next {
        said.hear(game);
    }
    true
}

/// That the transitions shown as enabled are those whose takes the marks cover.
fn enabled_where_covered(game: &Game) {
    for (number, transition) in game.net().transitions.iter().enumerate() {
        let mut takes = transition.takes.iter();
        let state = game.net_state();
        let covered = takes.all(|arc| state.mark(usize::from(arc.place)) >= arc.weight);
        assert_eq!(game.enabled(number), covered, "transition {number}");
    }
}

#[test]
fn random_games() {
    let (mut moves, mut of_copies, mut fired) = (0, 0, 0);
    for seed in 0..400 {
        let mut random = Random::new(seed);
        let file = match (seed % 80, seed % 8) {
            (0, _) => crowded_diagram(&mut random),
            (_, 0..=2) => lasting_trigger_diagram(&mut random, 24),
            (_, 3..=4) => killing_diagram(&mut random),
            _ => diagram(&mut random),
        };
        let mut case = Case {
            seed,
            file: file.clone(),
            lines: Vec::new(),
        };
        let new = || {
            let plant = Plant::read(&file).expect("an accepted file");
            Game::new(plant, file.clone(), STATION).expect("an accepted file")
        };
        let (mut game, mut said) = (new(), Said::default());
        for _ in 0..80 {
            let line = line(&mut random, &game);
            case.lines.push(line.clone());
            if !plays(&mut game, &line, &mut said) {
                case.lines.pop();
            }
            agrees_as_the_model_says(&game, &file);
            enabled_where_covered(&game);
        }
        copies_stand_as_the_model_says(&game, &file);
        lists_what_the_model_accepts(&game, &file);
        fits(&screen(&game, false).join("\n"));
        fits(&screen(&game, true).join("\n"));
        moves += game.sent_count();
        if game.plant().counts().any(Count::is_copy) {
            of_copies += game.sent_count();
        }

        // The same as a lesson: what was understood and as expected is no fault.
        let printed = scripted(new(), &case.lines.join("\n")).expect("a right script");
        fits(&printed);

        for command in [Command::Resend, Command::Deliver(Which::All)] {
            game.act(&command).expect("no expectation");
            said.hear(&game);
        }
        fired += said.fired;
        assert_eq!(game.behind(), 0);
        assert!(game.agree());
        agrees_as_the_model_says(&game, &file);
    }
    assert!(moves > 4_000, "random games that hardly move: {moves}");
    assert!(of_copies > 1_000, "and hardly with copies: {of_copies}");
    assert!(fired > 1_000, "and functions hardly step: {fired}");
}

/// The shipped diagrams that are accepted, by name.
fn shipped() -> BTreeMap<String, Vec<u8>> {
    let folder = concat!(env!("CARGO_MANIFEST_DIR"), "/../examples");
    let paths = std::fs::read_dir(folder).expect("shipped");
    let paths = paths.map(|entry| entry.expect("shipped").path());
    let diagrams = paths.filter(|path| path.extension().is_some_and(|end| end == "dia"));
    let files = diagrams.map(|path| {
        let name = path.file_stem().expect("a name").to_string_lossy();
        (name.into_owned(), std::fs::read(&path).expect("shipped"))
    });
    let accepted = files.filter(|(_, file)| effbd::read_diagram(file).is_ok());
    accepted.collect()
}

/// The transitions of FUNCTIONs of a shipped diagram that no moves reach.
fn unreached(name: &str) -> &'static [usize] {
    match name {
        // The loop is left before `stir` may end.
        "h" => &[4],
        // No row gives the orders that `heed-stop` and `quick-freeze` take, so the loop is not left for `pump-out`.
        "pump-down-and-defrost" => &[4, 5, 21, 22, 31, 32],
        _ => &[],
    }
}

/// The transition that a line says a step fires.
fn said_to_fire(line: &str) -> Option<usize> {
    let (_, behind) = line.split_once(", fires transition ")?;
    let number = behind.split(';').next()?;
    Some(number.parse().expect("a number"))
}

/// Every start and end of a FUNCTION of the shipped diagrams: list and panel name the transition that the controller fires.
#[test]
fn shipped_functions_fire_what_the_panel_says() {
    for (name, file) in shipped() {
        let plant = Plant::read(&file).expect("an accepted file");
        let mut game = Game::new(plant, file, STATION).expect("an accepted file");
        game.act(&Command::Auto(true)).expect("no expectation");
        let (mut random, mut said) = (Random::new(1), Said::default());
        let mut left: BTreeSet<usize> = (0..game.net().transitions.len()).collect();
        left.retain(|transition| of_function(&game, *transition));
        for _ in 0..2_000 {
            let choices = game.choices();
            if choices.is_empty() || random.chance(1) {
                game.act(&Command::Restart).expect("no expectation");
                continue;
            }
            let at = random.below(choices.len());
            let report = game.act(&Command::Pick(1 + at)).expect("no expectation");
            let fired = said.hear(&game).pop();
            for line in [&choices[at].words, &report.lines[0]] {
                assert_eq!(said_to_fire(line), fired, "{name}: {line}");
            }
            left.retain(|transition| Some(*transition) != fired);
        }
        let left: Vec<usize> = left.into_iter().collect();
        assert_eq!(left, unreached(&name), "{name}");
    }
}

/// Moves of the list alone, on plants with branches that kill: every kill is told, fires what the panel says, and the ends agree behind it.
#[test]
fn random_kills() {
    let mut kills = 0;
    for seed in 0..200 {
        let mut random = Random::new(seed);
        let file = killing_diagram(&mut random);
        let plant = Plant::read(&file).expect("an accepted file");
        let killers = structure::killers(&plant);
        let mut game = Game::new(plant, file.clone(), STATION).expect("an accepted file");
        game.act(&Command::Auto(true)).expect("no expectation");
        let mut said = Said::default();
        for _ in 0..60 {
            let done = |game: &Game| {
                let state = game.diagram_state();
                let mut branches = killers.iter().map(|killer| killer.branch);
                branches.any(|row| state.activity(row) == Activity::Done)
            };
            let (before, choices) = (done(&game), game.choices().len());
            let pick = Command::Pick(1 + random.below(choices.max(1)));
            let report = game.act(&pick).expect("no expectation");
            said.hear(&game);
            let told = report.lines[0].contains("; kills the other branches of ");
            assert!(!told || done(&game), "seed {seed}, {:?}", report.lines);
            assert!(
                told || before || !done(&game),
                "seed {seed}, {:?}",
                report.lines
            );
            agrees_as_the_model_says(&game, &file);
            kills += usize::from(told);
        }
    }
    assert!(kills > 50, "games that hardly kill: {kills}");
}

/// Moves of the list alone, on plants with boxes: an EXIT's step is told, clears all of its scenario, and the ends agree behind it.
#[test]
fn random_exits() {
    let mut exits = 0;
    for seed in 0..600 {
        let mut random = Random::new(seed);
        let file = killing_diagram(&mut random);
        let plant = Plant::read(&file).expect("an accepted file");
        if boxes::all(&plant).is_empty() {
            continue;
        }
        let mut game = Game::new(plant, file.clone(), STATION).expect("an accepted file");
        game.act(&Command::Auto(true)).expect("no expectation");
        for _ in 0..60 {
            let choices = game.choices();
            if choices.is_empty() {
                break;
            }
            let at = random.below(choices.len());
            let report = game.act(&Command::Pick(1 + at)).expect("no expectation");
            agrees_as_the_model_says(&game, &file);
            let left = match choices[at].made {
                Move::Step(row) => boxes::left(game.plant(), usize::from(row)),
                Move::Wait(_) => None,
            };
            let told = report.lines[0].contains(": leaves box");
            assert_eq!(told, left.is_some(), "seed {seed}, {:?}", report.lines);
            if let Some(boxed) = left {
                let state = game.diagram_state();
                assert!(!boxed.cleared().any(|row| state.busy(row)), "seed {seed}");
                assert!(report.lines[0].contains("; cleared: "), "seed {seed}");
                exits += 1;
            }
        }
    }
    assert!(exits > 50, "games that hardly leave boxes: {exits}");
}

/// What the terminal prints for this input.
fn typed(game: Game, input: &[u8]) -> String {
    let mut output = Vec::new();
    terminal(game, input, &mut output).expect("a Vec takes every byte");
    String::from_utf8(output).expect("text")
}

#[test]
fn terminal_on_piped_input() {
    let input = b"help\n1\nfoo\nstep nothing\nwait\n\n\xff\xfe\x1b[2J\n7\ndeliver\nexpect refused\n1\nstep 0";
    let printed = typed(pump_down(), input);
    fits(&printed);
    for words in [
        "`foo` is no command; help lists them",
        "no row is called `nothing`",
        "wait how long? ticks (wait 20) or seconds (wait 2.0s)",
        "is no command; help lists them",
        "the list has no move 7: they are 1 to 2",
        "the controller takes telegram 1: transition 0 fires, pump-down starts",
        "not as expected: expected a refusal, but there was a taken telegram 1 and a firing of",
        "the panel accepts: wait 50 ticks (5.0 s)",
        "the panel accepts: step pump-down (row 0): ends",
    ] {
        assert!(printed.contains(words), "no {words:?} in\n{printed}");
    }
    assert!(printed.ends_with("> \n"), "{printed}");
}

#[test]
fn terminal_ends() {
    for (input, end) in [
        (&b""[..], "> \n"),
        (b"\n", "> \n"),
        (b"quit\n1\n", "> the game ends\n"),
        (b"quit", "> the game ends\n"),
    ] {
        let printed = typed(feeding(), input);
        assert!(printed.ends_with(end), "{input:?}: {printed}");
    }
}

#[test]
fn a_refused_move_shows_no_screen_again() {
    let printed = typed(feeding(), b"wait 1\n");
    assert_eq!(printed.matches("CONTROLLER").count(), 1, "{printed}");
    let printed = typed(feeding(), b"step 0\n");
    assert_eq!(printed.matches("CONTROLLER").count(), 2, "{printed}");
}

/// A plant with names that need care: two alike, one with spaces, one that is long, one that would paint the terminal.
fn fans() -> Game {
    let long = "x".repeat(300);
    let names = ["fan", "fan", "Hot Gas", &long, "\u{1b}[31mred"];
    let mut rows: Vec<Row> = names.iter().map(|name| function(name, 1, 1, &[])).collect();
    rows.push(row(Part::End, ""));
    game(&[("one item", 1), ("twin", 0), ("twin", 0)], rows)
}

#[test]
fn wrong_scripts() {
    for (script, line, column, words) in [
        (
            "frobnicate",
            1,
            1,
            "`frobnicate` is no command; help lists them",
        ),
        (
            "show\n\n  Frob it",
            3,
            3,
            "`Frob` is no command; help lists them",
        ),
        ("show all", 1, 6, "`all` is too much here"),
        ("step", 1, 5, "step which row? its name or its number"),
        ("# so\nstep  pump", 2, 7, "no row is called `pump`"),
        (
            "step fan",
            1,
            6,
            "rows 0 and 1 are called `fan`: say the number",
        ),
        ("step 65536", 1, 6, "`65536` is too large for a row"),
        (
            "wait",
            1,
            5,
            "wait how long? ticks (wait 20) or seconds (wait 2.0s)",
        ),
        (
            "wait 65536",
            1,
            6,
            "one wait has at most 65535 ticks (6553.5 s)",
        ),
        (
            "wait 6553.6s",
            1,
            6,
            "one wait has at most 65535 ticks (6553.5 s)",
        ),
        ("wait 20 tocks", 1, 9, "`tocks` is too much here"),
        ("deliver some", 1, 9, "`some` is no telegram's number"),
        (
            "deliver 4294967296",
            1,
            9,
            "`4294967296` is no telegram's number",
        ),
        ("lose -1", 1, 6, "`-1` is no telegram's number"),
        ("ä", 1, 1, "`ä` is no command; help lists them"),
        ("repeat ä ä", 1, 8, "`ä` is no telegram's number"),
        ("delay 1 2", 1, 9, "`2` is too much here"),
        ("auto", 1, 5, "auto on, or auto off?"),
        ("auto maybe", 1, 6, "auto on, or auto off?"),
        ("expect refused x", 1, 16, "`x` is no refusal's number"),
        ("expect fires", 1, 13, "which transition fires?"),
        ("expect fires x", 1, 14, "`x` is no transition's number"),
        ("expect behind", 1, 14, "behind by how many telegrams?"),
        ("expect behind x", 1, 15, "`x` is no number of telegrams"),
        (
            "expect ready 6",
            1,
            14,
            "there is no row 6: the last is end (row 5)",
        ),
        ("expect idle", 1, 12, "which row? its name or its number"),
        (
            "expect count",
            1,
            13,
            "count of which item? its name, then the count",
        ),
        ("expect count one", 1, 17, "which count?"),
        (
            "expect count two item 1",
            1,
            14,
            "no item, or more than one, is called `two item`",
        ),
        (
            "expect count twin 0",
            1,
            14,
            "no item, or more than one, is called `twin`",
        ),
        ("expect count one item x", 1, 23, "`x` is no count"),
        // Understood, but not as expected.
        (
            "expect accepted",
            1,
            1,
            "expected an accepted move, but there was nothing",
        ),
        (
            "step 0\n expect refused",
            2,
            2,
            "expected a refusal, but there was an accepted move and a firing of transition 0",
        ),
        (
            "step 2\nexpect refused 23",
            2,
            1,
            "expected a refusal 23, but there was a refusal 22",
        ),
        (
            "step 0\nexpect taken",
            2,
            1,
            "expected a taken telegram, but there was an accepted move and a firing of transition 0",
        ),
        (
            "auto on\nstep 0\nexpect fires 1",
            3,
            1,
            "expected a firing of transition 1, but there was an accepted move, a firing of transition 0, a taken telegram 1 and a firing of transition 0",
        ),
        (
            "wait 1\nexpect fires 0",
            2,
            1,
            "expected a firing of transition 0, but there was a refusal 26",
        ),
        (
            "step 0\nexpect agree",
            2,
            1,
            "the controller is 1 telegram behind",
        ),
        (
            "step 0\nexpect behind 2",
            2,
            1,
            "the controller is 1 telegram behind, not 2",
        ),
        (
            "step 0\nexpect ready 0",
            2,
            1,
            "fan (row 0) is running, not ready",
        ),
        ("expect count one item 2", 1, 1, "one item has 1, not 2"),
    ] {
        let fault = scripted(fans(), script).expect_err(script);
        let found = (fault.line, fault.column, fault.words.as_str());
        assert_eq!(found, (line, column, words), "{script}");
        let said = format!("line {line}, column {column}: {words}");
        assert_eq!(fault.to_string(), said);
    }
    let times = ["2.x", "2.55s", "x", "2.0", ".5s", "s", "-1", "1.s", "+3"];
    for time in times {
        let fault = scripted(fans(), &format!("wait {time}")).expect_err(time);
        assert_eq!((fault.line, fault.column), (1, 6));
        assert!(fault.words.contains("is no time"), "{fault}");
    }
}

/// A trigger's count is asked for a row that takes it.
#[test]
fn wrong_counts() {
    for (count, words) in [
        (
            "door 1",
            "trigger `door` has a count for each row that takes it: say which, such as door@1",
        ),
        ("bell 3", "no row takes trigger `bell`: it has no count"),
        ("oil@fan 1", "`oil` is no trigger: it has one count"),
        ("dor@fan 1", "no item, or more than one, is called `dor`"),
        ("door@watch 1", "no row that takes door is called `watch`"),
        ("door@0 1", "no row that takes door is called `0`"),
        ("door@ 1", "no row that takes door is called ``"),
        (
            "door@fan 1",
            "rows 1 and 2 are called `fan`: say the number",
        ),
        ("bell@pump 1", "no row that takes bell is called `pump`"),
    ] {
        let script = format!("expect count {count}");
        let fault = scripted(ordered(), &script).expect_err(count);
        let found = (fault.line, fault.column, fault.words.as_str());
        assert_eq!(found, (1, 14, words), "{script}");
    }
    let fault = scripted(ordered(), "expect count door@pump x").expect_err("no number");
    assert_eq!(
        (fault.column, fault.words.as_str()),
        (24, "`x` is no count")
    );
    let fault = scripted(ordered(), "expect count door@2 1").expect_err("another");
    assert_eq!(fault.words, "door@2 has 65534, not 1");
    let right = "expect count \"Door@Pump\" 65534\nexpect count door@1 65534\nexpect count oil 1";
    scripted(ordered(), right).expect("a right script");
}

#[test]
fn a_fault_keeps_what_was_printed() {
    let fault = scripted(fans(), "step 0\nexpect refused\n").expect_err("not refused");
    assert!(fault
        .output
        .contains("the panel accepts: step fan (row 0): starts"));
    let fault = scripted(fans(), "step 0\nfrob\n").expect_err("no command");
    assert_eq!(fault.output, "");
}

/// Two ANDs one behind the other: each close waits for its own branches.
#[test]
fn a_close_names_its_own_branches() {
    let part = |part| row(part, "");
    let and = || {
        let branch = || Part::Branch { kills: false };
        let parts = [Part::And, branch(), branch(), Part::EndAnd];
        parts.into_iter().map(part)
    };
    let rows = and().chain(and()).chain([part(Part::End)]);
    let printed = scripted(game(&[], rows.collect()), "step 7").expect("a right script");
    let words = "end and (row 7) waits for its branches: branch (row 5) and branch (row 6)";
    assert!(printed.contains(words), "{printed}");
}

#[test]
fn right_scripts() {
    let script = "\u{feff}\tSTEP 0\r\nwait 1\r\nstep 0\r\nstep \"fan\" \n";
    let fault = scripted(fans(), script).expect_err("two rows");
    assert_eq!((fault.line, fault.column), (4, 6));
    for script in [
        "",
        "\n\n# nothing",
        "step 0\nwait 0.1s\nstep 0\nwait 1 tick\nexpect refused 26",
        "step 0\nexpect fires 0\nwait 1\nstep 0\nexpect fires 1\ndeliver all\nexpect fires 0\nexpect fires 1",
        "auto on\n1\n1\n1\n1\n1\n1\nstep hot gas\nexpect accepted\nexpect taken 7",
        "expect count One item 1\nexpect count \"one item\" 1\nexpect idle \"hot gas\"",
        "say\nsay  what is said\nquit\nexpect agree 4 or so".trim_end_matches(" 4 or so"),
    ] {
        scripted(fans(), script).unwrap_or_else(|fault| panic!("{script}: {fault}"));
    }
}

#[test]
fn long_names_fit() {
    let script = "1\n".repeat(13) + "show\nall\nlog\nmoves\nwait 5\nsay\t\u{1b}[2J\n";
    let printed = scripted(fans(), &script).expect("a right script");
    fits(&printed);
    fits(&typed(fans(), script.as_bytes()));
    assert!(printed.contains('…') && printed.contains("?[31mred"));
}

#[test]
fn names_of_another_plant_are_not_taken() {
    let file = include_bytes!("../../examples/a.dia").to_vec();
    let game = Game::new(Plant::default(), file.clone(), STATION).expect("an accepted file");
    assert_eq!(game.plant().rows[0].name.as_deref(), Some("function-0"));
    let refused = Game::new(Plant::default(), file[..33].to_vec(), STATION);
    let refused = refused.err().expect("a file that is cut short");
    assert_eq!((refused.number, refused.value), (1, 30));
}

#[test]
fn quit_ends_a_lesson() {
    let mut game = fans();
    let report = game.act(&Command::Quit).expect("no expectation");
    assert_eq!(report.then, Then::Quit);
    let printed = scripted(fans(), "quit\nexpect accepted").expect("ended before");
    assert!(printed.ends_with("> quit\nthe game ends\n"));
}
