//! The verdict on a network.
use super::{granted, raw, Fault};
use torusmem_sys as sys;

/// What is judged of a network.
#[derive(Clone, Debug, PartialEq, Eq)]
pub enum Verdict {
    /// A number for each channel, by channel: they rise along every route and every reply, so that it is free of deadlock.
    Rising(Vec<u64>),
    /// The first pair of a `join` line that has no route, and why.
    NoRoute { from: u32, to: u32, why: Why },
    /// No line says `join`: no packets go anywhere, so nothing is judged.
    NoPair,
    /// Channels that wait for one another in a circle: each for the next one, and the last one for the first. And the
    /// channels that fill up where the network deadlocks, the first to be filled first; none where they weren't found.
    Cycle { links: Vec<Link>, jam: Vec<Fill> },
}

/// Why the walk of a pair is no route. A step is counted from 0, the first channel.
#[derive(Clone, Copy, Debug, PartialEq, Eq, Hash)]
pub enum Why {
    /// The first is no injection channel.
    NoSender,
    /// The second is no ejection channel.
    NoReceiver,
    /// There is no channel at this step.
    Leaves(u64),
    /// It comes to another ejection channel at this step.
    Ejects(u64),
    /// It comes to an injection channel at this step.
    Injects(u64),
    /// It goes round for ever.
    Round,
}

/// A channel of a cycle, and how it leads on to the next one.
#[derive(Clone, Copy, Debug, PartialEq, Eq, Hash)]
pub struct Link {
    pub channel: u32,
    pub by: By,
}

/// How a channel leads on to another.
#[derive(Clone, Copy, Debug, PartialEq, Eq, Hash)]
pub enum By {
    /// By packets to this ejection channel.
    To(u32),
    /// By replies on this injection channel.
    Replies(u32),
}

/// A channel that fills up: at this step, from 0, of the route of packets of one flit from a channel to another.
#[derive(Clone, Copy, Debug, PartialEq, Eq, Hash)]
pub struct Fill {
    pub from: u32,
    pub to: u32,
    pub step: u64,
}

/// Judges the network of a network text (docs/FORMATS.md, "Network text"): numbers that rise along every route, a
/// pair without a route, or a cycle with the channels that fill up. The faults are those of the text, and memory that
/// is refused.
///
/// ```
/// use torusmem::{network, Verdict};
///
/// let line = b"channels 3\ninject 0\neject 2\njoin 0 2\nnext 0 2 1\nnext 1 2 2\n";
/// assert_eq!(network(line), Ok(Verdict::Rising(vec![0, 1, 2])));
/// ```
pub fn network(text: &[u8]) -> Result<Verdict, Fault> {
    let mut room = vec![0; 1 << 16];
    let mut said = raw::network(text, &mut room);
    if said.code == sys::TORUSMEM_SHORT {
        room.resize(said.value as usize, 0);
        said = raw::network(text, &mut room);
    }
    let read = |room: &[u8]| String::from_utf8_lossy(&room[..said.value as usize]).into_owned();
    match said.code {
        sys::TORUSMEM_NO_ROUTE => Ok(no_route(&read(&room))),
        sys::TORUSMEM_CYCLE => Ok(cycle(&read(&room))),
        sys::TORUSMEM_NO_PAIR => Ok(Verdict::NoPair),
        _ => {
            granted(said)?;
            let text = read(&room);
            let numbers = text.lines().filter(|line| line.starts_with("number "));
            Ok(Verdict::Rising(numbers.map(last).collect()))
        }
    }
}

/// Whether the numbers of a network's channels rise, so that it never deadlocks, and the text that the program prints of a
/// network text, whose routers may choose. The faults are those of the text, and memory that is refused.
///
/// ```
/// let text = b"channels 2\ninject 0\neject 1\njoin 0 1\n";
/// assert_eq!(torusmem::network_answer(text), Ok((false, "no route 0 1: no channel at step 1\n".to_string())));
/// ```
pub fn network_answer(text: &[u8]) -> Result<(bool, String), Fault> {
    let mut room = vec![0; 1 << 16];
    let mut said = raw::network_answer(text, &mut room);
    if said.code == sys::TORUSMEM_SHORT {
        room.resize(said.value as usize, 0);
        said = raw::network_answer(text, &mut room);
    }
    if said.code != sys::TORUSMEM_NOT_RISING {
        granted(said)?;
    }
    let told = String::from_utf8_lossy(&room[..said.value as usize]).into_owned();
    Ok((said.code == sys::TORUSMEM_OK, told))
}

/// The last word of a line, which is a number where one belongs there.
fn last(line: &str) -> u64 {
    line.rsplit(' ').next().and_then(|word| word.trim_end().parse().ok()).unwrap_or_default()
}

/// The word at a place of a line, which is a channel where one belongs there.
fn channel(line: &str, place: usize) -> u32 {
    let word = line.split([' ', ':']).nth(place);
    word.and_then(|word| word.parse().ok()).unwrap_or_default()
}

/// The pair of a line `no route I J: REASON`.
fn no_route(line: &str) -> Verdict {
    let reason = line.split_once(": ").map_or("", |parts| parts.1);
    let why = match reason.split(' ').take(2).collect::<Vec<_>>()[..] {
        ["the", "first"] => Why::NoSender,
        ["the", "second"] => Why::NoReceiver,
        ["no", _] => Why::Leaves(last(line)),
        ["another", _] => Why::Ejects(last(line)),
        ["an", _] => Why::Injects(last(line)),
        _ => Why::Round,
    };
    Verdict::NoRoute { from: channel(line, 2), to: channel(line, 3), why }
}

/// The channel of a line `X to J` or `X replies Y`.
fn link(line: &str) -> Link {
    let by = if line.contains(" replies ") { By::Replies(channel(line, 2)) } else { By::To(channel(line, 2)) };
    Link { channel: channel(line, 0), by }
}

/// The lines of a cycle, and of the channels that fill up behind it.
fn cycle(text: &str) -> Verdict {
    let is_told = |line: &&str| *line != "cycle" && !line.starts_with("locks up") && !line.starts_with("pairs ");
    let lines = text.lines().filter(is_told);
    let (fills, links): (Vec<_>, Vec<_>) = lines.partition(|line| line.starts_with("fill "));
    let fill = |line: &str| Fill { from: channel(line, 1), to: channel(line, 2), step: last(line) };
    Verdict::Cycle { links: links.into_iter().map(link).collect(), jam: fills.into_iter().map(fill).collect() }
}
