//! What the program is asked for on its command line.

pub const USAGE: &str = "\
usage: session_comparison --sessions N [--seed S] [--spoil]

  --sessions N  how many sessions are run on both sides, 1 or more
  --seed S      the first session's seed (1 where it is not given); the next
                ones have the seeds that follow
  --spoil       alters a bit of some replies on our side, to see what a
                difference looks like

exit status: 0 where the two sides are alike, 1 where they part, 2 where the
arguments are not these or the original's source was not at hand";

#[derive(Clone, Copy, Debug, PartialEq, Eq)]
pub struct Arguments {
    pub sessions: u64,
    pub seed: u64,
    pub spoil: bool,
}

/// The arguments after the program's name, or what is wrong with them.
pub fn parse(arguments: impl IntoIterator<Item = String>) -> Result<Arguments, String> {
    let (mut sessions, mut seed, mut spoil) = (None, None, false);
    let mut arguments = arguments.into_iter();
    while let Some(name) = arguments.next() {
        let place = match name.as_str() {
            "--sessions" => &mut sessions,
            "--seed" => &mut seed,
            "--spoil" => {
                spoil = true;
                continue;
            }
            _ => return Err(format!("there is no argument {name}")),
        };
        if place.is_some() {
            return Err(format!("{name} is given twice"));
        }
        *place = Some(number(&name, arguments.next())?);
    }
    match sessions {
        None => Err("--sessions is missing".into()),
        Some(0) => Err("--sessions wants 1 or more".into()),
        Some(sessions) => Ok(Arguments {
            sessions,
            seed: seed.unwrap_or(1),
            spoil,
        }),
    }
}

fn number(name: &str, given: Option<String>) -> Result<u64, String> {
    let given = given.ok_or_else(|| format!("{name} wants a number"))?;
    given
        .parse()
        .map_err(|_| format!("{name} wants a number, not {given}"))
}

#[cfg(test)]
mod tests {
    use super::*;

    fn parsed(line: &str) -> Result<Arguments, String> {
        parse(line.split_whitespace().map(String::from))
    }

    #[test]
    fn what_is_asked_for() {
        let asked = |sessions, seed, spoil| {
            Ok(Arguments {
                sessions,
                seed,
                spoil,
            })
        };
        assert_eq!(parsed("--sessions 20"), asked(20, 1, false));
        assert_eq!(parsed("--seed 7 --sessions 1"), asked(1, 7, false));
        assert_eq!(parsed("--sessions 3 --spoil --seed 0"), asked(3, 0, true));
    }

    #[test]
    fn what_is_wrong() {
        let wrong = |line: &str| parsed(line).expect_err(line);
        assert_eq!(wrong(""), "--sessions is missing");
        assert_eq!(wrong("--seed 4"), "--sessions is missing");
        assert_eq!(wrong("--sessions"), "--sessions wants a number");
        assert_eq!(wrong("--sessions 0"), "--sessions wants 1 or more");
        assert_eq!(
            wrong("--sessions many"),
            "--sessions wants a number, not many"
        );
        assert_eq!(wrong("--sessions -1"), "--sessions wants a number, not -1");
        assert_eq!(
            wrong("--sessions 1 --sessions 2"),
            "--sessions is given twice"
        );
        assert_eq!(wrong("--session 1"), "there is no argument --session");
        assert_eq!(wrong("20"), "there is no argument 20");
    }
}
