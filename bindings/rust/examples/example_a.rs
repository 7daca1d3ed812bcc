//! Example A of document 01 from Rust: a move over the bus, its transition, and what is turned away.

use effbd::{
    fresh_diagram, fresh_net, move_diagram, offer_move, read_diagram, read_net, take, transition,
    translate, Move, Refusal, NET_ROOM, TELEGRAM_LENGTH,
};

fn main() -> Result<(), Refusal> {
    let file = [
        10, 0, 1, 0, 1, 0, 2, 0, 1, 0, 6, 0, 2, 0, 3, 0, 14, 0, 16, 0, 2, 0, 5, 0, 0, 0, 1, 0, 0,
        0, 4, 0, 27, 0,
    ];
    let mut area = vec![0; NET_ROOM];
    let length = translate(&file, &mut area)? as usize;
    let net = &area[..length];
    let mut leader = vec![0; read_diagram(&file)? as usize];
    let mut follower = vec![0; read_net(net)? as usize];
    fresh_diagram(&file, &mut leader)?;
    fresh_net(net, &mut follower)?;

    // Which transition of the net a step of row 0 fires, ready and then running.
    let starts = transition(&file, &leader, 0)?;
    let station = 9;
    let mut telegram = [0; TELEGRAM_LENGTH];
    let sent = offer_move(&file, &mut leader, 0, station, Move::Step(0), &mut telegram)?;
    let taken = take(net, &mut follower, 0, station, &telegram)?;
    let ends = transition(&file, &leader, 0)?;
    println!("net {length} bytes, {sent} sent, {taken} taken");
    println!("row 0 starts by t {starts}, ends by t {ends}");
    println!("diagram {leader:?}, net {follower:?}");

    // The same telegram again, an end that comes too early, and the transition of END, which has none.
    for refused in [
        take(net, &mut follower, taken, station, &telegram),
        move_diagram(&file, &mut leader, Move::Step(0)),
        transition(&file, &leader, 1),
    ] {
        match refused {
            Ok(value) => println!("accepted: {value}"),
            Err(refusal) => println!("refused: {refusal}"),
        }
    }
    Ok(())
}
