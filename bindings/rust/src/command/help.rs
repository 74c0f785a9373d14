//! What the command says of itself.

/// Name and version.
pub const VERSION: &str = concat!("chuntarek ", env!("CARGO_PKG_VERSION"));

/// Where to look after a command that was not understood.
pub const HINT: &str = "Try `chuntarek --help`.";

/// The help.
pub const TEXT: &str = "\
chuntarek reads CIF files, with a library that is proved to follow its rules.

Usage:
  chuntarek outline [--strict] FILE...  what stands where: kind, offset, length, line, column
  chuntarek check [--strict] FILE...    say what is wrong with each file; nothing if all is well
  chuntarek values [--strict] [--tabs] FILE [TAG...]
                                        the tags and their values, or only those named
  chuntarek render [--strict] FILE      the file again, one token to a line, without comments
  chuntarek compare [--strict] [--rewritten] [--json] OLD NEW [--tag TAG...]
                                        what changed from OLD to NEW; nothing if nothing did
  chuntarek --help | --version

  FILE may be -, for standard input. TAG may be written with or without its _ and in any letter
  case. After -- nothing is an option.

  --strict reads by the CIF 1.1 standard itself: one block or more; a quote ends only before
  space, so that 'O'Neill' is one value; a text field opens only at the start of a line; a line has
  at most 2,048 bytes and a name 75. Without it a file holds one block, and a quote ends at the next
  mark of its kind.

  values shows single tags one to a line and loops as tables. Where a file has several blocks, each
  table is headed by its block, and by its frame. Control characters are shown as \\n, \\t and the
  like, a backslash as \\\\. With --tabs the columns are parted by one tab.

  compare matches values by frame, tag and row, and compares texts without their quote marks and
  numbers as exact decimals. A line has the tag, in a loop also the row and its first text, the old
  and the new value, and what the new one is to the old: larger, smaller, uncertainty (only that
  differs), changed, only in OLD or only in NEW. Numbers that are only rewritten, as 90 and 90.0,
  are counted, and shown with --rewritten. --tag compares only the tags behind it. With --json each
  difference is an object on a line of its own. Each file holds one block.

Examples:
  chuntarek check *.cif                 before sending files on
  chuntarek check --strict lab/*.cif    files of labs that follow the standard to the letter
  chuntarek values urea.cif cell_length_a cell_length_b
  chuntarek values --tabs urea.cif _atom_site_label _atom_site_fract_x | sort
  unzip -p batch.zip one.cif | chuntarek check -
  chuntarek compare monday.cif tuesday.cif
  git show HEAD~1:urea.cif | chuntarek compare - urea.cif --tag cell_length_a cell_length_b

Results go to standard output, messages to standard error.
Exit status: 0 done; 1 a file is refused, or a TAG is not there; 2 the command is not understood,
or a file cannot be read. Of compare, as of diff: 0 nothing differs; 1 something does; 2 a file
cannot be read or is refused, or neither has a TAG.
";
