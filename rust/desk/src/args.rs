//! The command line.

use std::ffi::OsString;
use std::path::PathBuf;

pub const HELP: &str = "\
desk: reads queries by a pack, for people

  desk read PACK [QUERY]        reads a query: its tree, or why it is refused
  desk check PACK               whether the pack keeps the six conditions
  desk show PACK                what is in the pack, in tables
  desk draw PACK [QUERY]        the tree of a query as a picture (SVG)

PACK is a pack text. Names come from the file beside it whose name ends in .names, where there is one. A query that is not given
is all that stands on standard input, to the last byte.

  --file FILE       read, draw: the query is what this file holds
  --allowance N     read, draw: the most moves of the scanner (without it 4294967295)
  --room N          read, draw: the most records of the tree (without it 65535)
  --depth N         read: how many levels of the tree are drawn (without it 100)
  --print           read: the tree as nested parentheses, the words in it byte for byte; with --json a field
  --state N         show: the row of a parse state
  --scan N          show: a scan state
  -o FILE           draw: where the picture goes (without it standard output)
  --names FILE      other names than those beside the pack
  --json            for programs (read, check, show); bytes that are no UTF-8 are a list of numbers there
  --color WHEN      auto (only on a terminal), always or never
  --help, --version

Examples:
  desk read packs/profile.pack 'share of std::sort under main'
  desk read packs/profile.pack 'share of group'
  desk read packs/json.pack --file order.json --allowance 100000
  desk check packs/json.pack
  desk show packs/small.pack --state 1
  desk draw packs/profile.pack 'top 10 of malloc group by core' -o tree.svg

The exit status is 0 where it is done, 1 for a refusal of the pack or the query, and 2 for wrong use: words that are not understood,
and files that cannot be read or written.
";

#[derive(Clone, Copy, Debug, PartialEq, Eq)]
pub enum Command {
    Read,
    Check,
    Show,
    Draw,
}

#[derive(Clone, Copy, Debug, PartialEq, Eq)]
pub enum When {
    Auto,
    Always,
    Never,
}

/// What is wanted.
pub struct Args {
    pub command: Command,
    pub pack: PathBuf,
    pub query: Option<Vec<u8>>,
    pub file: Option<PathBuf>,
    pub names: Option<PathBuf>,
    pub output: Option<PathBuf>,
    pub allowance: u32,
    pub room: usize,
    pub depth: usize,
    pub print: bool,
    pub state: Option<usize>,
    pub scan: Option<usize>,
    pub json: bool,
    pub color: When,
}

pub enum Wanted {
    Run(Box<Args>),
    Help,
    Version,
}

/// The bytes of a word of the command line, as they were given.
#[cfg(unix)]
fn bytes_of(word: OsString) -> Vec<u8> {
    use std::os::unix::ffi::OsStringExt;
    word.into_vec()
}

#[cfg(not(unix))]
fn bytes_of(word: OsString) -> Vec<u8> {
    word.to_string_lossy().into_owned().into_bytes()
}

/// The number behind an option.
fn number<N: std::str::FromStr>(option: &str, word: OsString) -> Result<N, String> {
    let text = word.to_string_lossy().into_owned();
    text.parse()
        .map_err(|_| format!("{option} wants a number, and `{text}` is none that it can take"))
}

/// Reads the words behind the program's name; the error says what is wrong with them.
pub fn read(words: impl IntoIterator<Item = OsString>) -> Result<Wanted, String> {
    let mut words = words.into_iter();
    let mut plain: Vec<OsString> = Vec::new();
    let mut args = Args {
        command: Command::Read,
        pack: PathBuf::new(),
        query: None,
        file: None,
        names: None,
        output: None,
        allowance: u32::MAX,
        room: usize::MAX,
        depth: 100,
        print: false,
        state: None,
        scan: None,
        json: false,
        color: When::Auto,
    };
    let mut given: Vec<String> = Vec::new();
    while let Some(word) = words.next() {
        let text = word.to_string_lossy().into_owned();
        // A lone `-` is a word like any other.
        if !text.starts_with('-') || text == "-" {
            plain.push(word);
            continue;
        }
        if text == "--" {
            plain.extend(words);
            break;
        }
        let mut value = || {
            words
                .next()
                .ok_or_else(|| format!("{text} wants something behind it"))
        };
        match text.as_str() {
            "--help" | "-h" => return Ok(Wanted::Help),
            "--version" | "-V" => return Ok(Wanted::Version),
            "--json" => args.json = true,
            "--print" => args.print = true,
            "--file" => args.file = Some(value()?.into()),
            "--names" => args.names = Some(value()?.into()),
            "-o" => args.output = Some(value()?.into()),
            "--allowance" => args.allowance = number(&text, value()?)?,
            "--room" => args.room = number(&text, value()?)?,
            "--depth" => args.depth = number(&text, value()?)?,
            "--state" => args.state = Some(number(&text, value()?)?),
            "--scan" => args.scan = Some(number(&text, value()?)?),
            "--color" => {
                args.color = match value()?.to_string_lossy().as_ref() {
                    "auto" => When::Auto,
                    "always" => When::Always,
                    "never" => When::Never,
                    other => {
                        return Err(format!(
                            "--color wants auto, always or never, and not `{other}`"
                        ))
                    }
                }
            }
            _ => return Err(format!("there is no option {text}")),
        }
        given.push(text);
    }
    let mut plain = plain.into_iter();
    let command = plain
        .next()
        .ok_or("what is to be done: read, check, show or draw?")?;
    args.command = match command.to_string_lossy().as_ref() {
        "read" => Command::Read,
        "check" => Command::Check,
        "show" => Command::Show,
        "draw" => Command::Draw,
        "help" => return Ok(Wanted::Help),
        other => {
            return Err(format!(
                "there is no command `{other}`: it is read, check, show or draw"
            ))
        }
    };
    args.pack = plain
        .next()
        .ok_or("which pack? Its file comes behind the command")?
        .into();
    args.query = plain.next().map(bytes_of);
    if let Some(more) = plain.next() {
        let more = more.to_string_lossy().into_owned();
        return Err(format!(
            "`{more}` is one word too many; a query of several words stands in quotes"
        ));
    }
    fits(&args, &given).map(|()| Wanted::Run(Box::new(args)))
}

/// Whether the options go with the command.
fn fits(args: &Args, given: &[String]) -> Result<(), String> {
    let reads = matches!(args.command, Command::Read | Command::Draw);
    let name = format!("{:?}", args.command).to_lowercase();
    for option in given {
        let good = match option.as_str() {
            "--file" | "--allowance" | "--room" => reads,
            "--depth" | "--print" => args.command == Command::Read,
            "--state" | "--scan" => args.command == Command::Show,
            "-o" => args.command == Command::Draw,
            "--json" => args.command != Command::Draw,
            _ => true,
        };
        if !good {
            return Err(format!("{option} does not go with {name}"));
        }
    }
    if args.query.is_some() && !reads {
        return Err(format!("{name} takes no query"));
    }
    if args.query.is_some() && args.file.is_some() {
        return Err("the query is given twice, as a word and by --file".to_string());
    }
    Ok(())
}
