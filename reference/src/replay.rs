//! Plays a table of matches and tells what became of each.

use crate::formats::{Format, Match};
use crate::side::Side;

/// One line of a table: `NAME OPENER POINTS`.
pub struct Line {
    pub format: Format,
    pub opener: Side,
    pub points: Vec<Side>,
}

/// `A` or `B`, and nothing else.
pub fn parse_side(word: &str) -> Option<Side> {
    match word {
        "A" => Some(Side::A),
        "B" => Some(Side::B),
        _ => None,
    }
}

pub fn parse_line(line: &str) -> Result<Line, String> {
    let mut words = line.split_whitespace();
    let name = words.next().ok_or("the line is empty")?;
    let format = Format::from_name(name).ok_or(format!("no format is called {name}"))?;
    let opener = words
        .next()
        .and_then(parse_side)
        .ok_or("the opener is not A or B")?;
    // A match in which nothing was played has no third word.
    let points = words
        .next()
        .unwrap_or("")
        .bytes()
        .map(Side::from_byte)
        .collect::<Option<Vec<Side>>>()
        .ok_or("the points are not all A or B")?;
    if words.next().is_some() {
        return Err("there are more than three words".to_string());
    }
    Ok(Line {
        format,
        opener,
        points,
    })
}

/// The three lines for one match.
pub fn report(line: &Line) -> String {
    let mut game = Match::open(line.format, line.opener);
    let mut taken = 0;
    let mut servers = String::new();
    for &side in &line.points {
        let server = game.server();
        if !game.point(side) {
            break;
        }
        taken += 1;
        servers.push(server.letter());
    }
    let winner = match game.winner() {
        Some(side) => side.letter().to_string(),
        None => "nobody".to_string(),
    };
    let levels: Vec<String> = game
        .levels()
        .iter()
        .map(|level| {
            let counts = format!("{}-{}", level.tally.a, level.tally.b);
            match level.winner {
                Some(side) => format!("{}/{}", counts, side.letter()),
                None => counts,
            }
        })
        .collect();
    format!(
        "{} {} taken {} winner {}\nservers {}\nlevels {}\n",
        line.format.name(),
        line.opener.letter(),
        taken,
        winner,
        servers,
        levels.join(" ")
    )
}

/// The report of a whole table.
pub fn table(text: &str) -> Result<String, String> {
    let mut out = String::new();
    for (index, line) in text.lines().enumerate() {
        let parsed = parse_line(line).map_err(|why| format!("line {}: {}", index + 1, why))?;
        out += &report(&parsed);
    }
    Ok(out)
}

#[cfg(test)]
mod tests {
    use super::*;

    #[test]
    fn a_finished_game_with_points_too_many() {
        assert_eq!(
            table("game B ABABABAABB\n").unwrap(),
            "game B taken 8 winner A\nservers BBBBBBBB\nlevels 5-3/A\n"
        );
    }

    #[test]
    fn a_match_between_two_games() {
        assert_eq!(
            table("tennis3 A AAAABBBB\n").unwrap(),
            "tennis3 A taken 8 winner nobody\nservers AAAABBBB\nlevels 0-0 1-1 0-4/B\n"
        );
    }

    #[test]
    fn lines_that_are_no_matches() {
        assert!(table("chess A A\n").is_err());
        assert!(table("game C A\n").is_err());
        assert!(table("game A AX\n").is_err());
        assert!(table("game A A A\n").is_err());
        assert!(table("\n").is_err());
    }
}
