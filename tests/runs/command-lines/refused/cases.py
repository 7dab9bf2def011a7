"""Command lines that are none, and requests for help: clap's text goes to standard error."""

LACKS = "error: the following required arguments were not provided:\n"
TWICE = "error: the argument '--machine <FILE>' cannot be used multiple times\n"
MORE = "\nFor more information, try '--help'.\n"
RUN = "\nUsage: bootcore run --machine <FILE> --trace <FILE>\n"
COMMANDS = "  [subcommands: run, check, help]\n"
ANY = "\nUsage: bootcore <COMMAND>\n"
HELP = """The memory and protocol services that firmware boots by

Usage: bootcore <COMMAND>

Commands:
  run    Runs a trace on a machine, and prints the replies
  check  Judges the certificate block on standard input
  help   Print this message or the help of the given subcommand(s)

Options:
  -h, --help     Print help
  -V, --version  Print version
"""
# Each with the text that is printed.
LINES = [
    ("", f"error: 'bootcore' requires a subcommand but one was not provided\n{COMMANDS}{ANY}{MORE}"),
    ("runs", "error: unrecognized subcommand 'runs'\n\n  tip: a similar subcommand exists: 'run'\n" + ANY + MORE),
    ("run", f"{LACKS}  --machine <FILE>\n  --trace <FILE>\n{RUN}{MORE}"),
    ("run --machine=a.json", f"{LACKS}  --trace <FILE>\n{RUN}{MORE}"),
    ("run --machine=a.json --trace", f"error: a value is required for '--trace <FILE>' but none was supplied\n{MORE}"),
    ("run --machine a --machine b --trace c", TWICE + RUN.replace("run", "run [OPTIONS]") + MORE),
    ("check x", "error: unexpected argument 'x' found\n\nUsage: bootcore check\n" + MORE),
    ("run --version", f"error: unexpected argument '--version' found\n\nUsage: bootcore run [OPTIONS] --machine <FILE> --trace <FILE>\n{MORE}"),
    ("--help", HELP),
]


def cases():
    for words, fault in LINES:
        yield words or "no word", {"args": words.replace(" ", "\n"), "stderr": fault, "status": "2"}
