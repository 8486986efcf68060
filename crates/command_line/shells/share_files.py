"""The man page of manifest_check and its completions for bash, zsh and fish, made from the rows of src/arguments.rt.

All three complete `manifest_check` and `cargo-manifest-check`; zsh and fish complete `cargo manifest-check` too. The
files are in `share`, as `make install` installs them. `.ci/completions` compares them with these texts, or writes them.
"""
import re

from arguments import subcommands
from page_text import section
from wheel import version

PROGRAM, PLUGIN = "manifest_check", "cargo-manifest-check"
COMMANDS = subcommands()
NAMES = " ".join(it.name for it in COMMANDS)

# The commands that print the names of all known targets, these after `all`, and the names of all lints.
LISTS = {"target": f"{PROGRAM} targets 'cfg(all())' 2>/dev/null | sed '$d'",
         "selection": f"echo all; {PROGRAM} targets 'cfg(all())' 2>/dev/null | sed '$d'",
         "lint": f"{PROGRAM} lint --list-codes 2>/dev/null | cut -d ' ' -f 1"}

# The arguments whose value is the name of a target: two options, and the argument of `facts`.
TARGETS = ("target", "host", "name")

# Arguments whose value is the path of a file.
PATHS = ("FILE", "MANIFEST", "PATH")

# The last sections of the man page: a term and its description each.
SECTIONS = {
    "EXIT STATUS": re.findall(r"^\| (\d) \| (.*) \|$", section("docs/commands/README.md", "Exit status"), re.M),
    "ENVIRONMENT": (
        ("NO_COLOR, CARGO_TERM_COLOR, TERM", "Decide with --color auto whether lint prints colours."),
        ("CARGO_ENCODED_RUSTFLAGS, RUSTFLAGS, CARGO_BUILD_RUSTFLAGS, CARGO_TARGET_NAME_RUSTFLAGS",
         "Flags in which select looks for --cfg, as Cargo does. NAME is that of the target."),
        ("CARGO_HOME", "The folder with the user's own configuration of Cargo; by default ~/.cargo."),
        ("SOURCE_DATE_EPOCH", "Sets the time in what graph --html and graph --format write, in seconds since 1970."),
    ),
    "FILES": (
        ("Cargo.toml", "The manifests that lint and select read, with those of a workspace's members."),
        (".cargo/config.toml", "Cargo's configuration. lint checks its keys of target, and select reads its flags."),
    ),
}


def quoted(text):
    """Returns a text in single quotes of a shell."""
    return "'" + text.replace("'", "'\\''") + "'"


# How bash completes the last one of lints that are joined by commas.
LAST_LINT = (f"""COMPREPLY=($(compgen -P "${{begun%"${{begun##*,}}"}}" -W "$({LISTS['lint']})" """
             """-- "${begun##*,}"))""")

# How each shell completes a value, by its kind.
VALUES = {
    "bash": {"words": "COMPREPLY=($(compgen -W 'WORDS' -- \"$begun\"))",
             "path": 'COMPREPLY=($(compgen -f -- "$begun"))', "text": "COMPREPLY=()",
             **{kind: f'COMPREPLY=($(compgen -W "$({text})" -- "$begun"))' for kind, text in LISTS.items()},
             "lints": LAST_LINT},
    "zsh": {"words": "(WORDS)", "path": "_files", "text": " ", **{kind: f"_{PROGRAM}_{kind}s" for kind in LISTS}},
    "fish": {"words": " -x -a 'WORDS'", "path": " -r -F", "text": " -x",
             **{kind: f" -x -a {quoted(f'({text})')}" for kind, text in LISTS.items()}},
}
# zsh and fish complete only the first lint of a list.
for shell in ("zsh", "fish"):
    VALUES[shell]["lints"] = VALUES[shell]["lint"]


def kind_of(argument):
    """Returns the kind of an argument's value: a word of a list, a target, a target or `all`, a lint, lints that are
    joined by commas, a path, or another text."""
    if argument.words:
        return "words"
    if argument.name in TARGETS:
        return "selection" if argument.kind == "Needed" else "target"
    if argument.value in ("LINT", "LINTS"):
        return argument.value.lower()
    return "path" if argument.value in PATHS else "text"


def value(shell, argument):
    return VALUES[shell][kind_of(argument)].replace("WORDS", " ".join(argument.words))


def options(subcommand):
    return [it for it in subcommand.arguments if it.is_option]


def places(subcommand):
    return [it for it in subcommand.arguments if not it.is_option]


def place_value(shell, subcommand):
    """Returns how a shell completes the first argument that is no option, or "" if there is none, or any text fits."""
    first = next(iter(places(subcommand)), None)
    return value(shell, first) if first and kind_of(first) != "text" else ""


# ---- the man page

def usage(argument):
    """Returns an argument as a line of usage has it."""
    name = f"-{argument.letter}" if argument.letter else f"--{argument.name}"
    text = f"{name} {argument.value}".strip() if argument.is_option else argument.value
    repeated = ".." if argument.is_repeated else ""
    return text + repeated if argument.is_needed else f"[{text}]{repeated}"


def roff(text):
    """Returns a text as roff prints it."""
    return re.sub(r"^([.'])", r"\\&\1", text.replace("\\", "\\e").replace("-", "\\-"), flags=re.M)


def term_lines(term, text):
    return [".TP", f".B {roff(term)}", roff(text)]


def argument_lines(argument):
    letter = f"-{argument.letter}, " if argument.letter else ""
    term = f"{letter}--{argument.name} {argument.value}".strip() if argument.is_option else argument.value
    return term_lines(term, argument.help + (f" ({', '.join(argument.words)})" if argument.words else ""))


def man_page():
    lines = [f'.TH {PROGRAM.upper()} 1 "" "nevgrasi {version()}"', ".SH NAME",
             f"{PROGRAM} \\- check and query the target conditions of Cargo manifests", ".SH SYNOPSIS"]
    for it in COMMANDS:
        lines += [f".B {PROGRAM} {it.name}", roff(" ".join(map(usage, [*options(it), *places(it)]))), ".br"]
    lines += [".SH DESCRIPTION", f"If it is on the PATH as {roff(PLUGIN)}, it is also a command of Cargo's."]
    examples = []
    for it in COMMANDS:
        example, *parts = it.end.split("\n\n")
        examples.append(roff(example.removeprefix("Example: ")))
        lines += [f".SS {it.name}", roff(it.about) + "."]
        lines += [line for argument in it.arguments for line in argument_lines(argument)]
        lines += [line for part in parts for line in (".PP", roff(part))]
    for title, rows in SECTIONS.items():
        lines += [f'.SH "{title}"', *(line for row in rows for line in term_lines(*row))]
    return "\n".join([*lines, ".SH EXAMPLES", ".nf", *examples, ".fi", ""])


# ---- the shells

def bash():
    values, words = [], []
    for it in COMMANDS:
        values += [f"    '{it.name} --{option.name}') {value('bash', option)}; return ;;"
                   for option in options(it) if option.value]
        names = " ".join(f"--{option.name}" for option in options(it))
        words += [f"    '{it.name} '-*) COMPREPLY=($(compgen -W '{names}' -- \"$begun\")) ;;"]
        if given := place_value("bash", it):
            words += [f"    '{it.name} '*) {given} ;;"]
    return "\n".join([
        f"# bash completion of {PROGRAM}, written by .ci/completions", f"_{PROGRAM}() {{",
        '    local begun="${COMP_WORDS[COMP_CWORD]}" before="${COMP_WORDS[COMP_CWORD - 1]}"',
        "    if ((COMP_CWORD == 1)); then",
        f"        COMPREPLY=($(compgen -W '{NAMES} help' -- \"$begun\"))",
        "        return", "    fi",
        '    case "${COMP_WORDS[1]} $before" in', *values, "    esac",
        '    case "${COMP_WORDS[1]} $begun" in', *words,
        f"    'help '*) COMPREPLY=($(compgen -W '{NAMES}' -- \"$begun\")) ;;", "    esac", "}",
        f"complete -o filenames -F _{PROGRAM} {PROGRAM} {PLUGIN}", ""])


def zsh_argument(argument):
    """Returns an argument as `_arguments` takes it."""
    help = re.sub(r"([\[\]:\\])", r"\\\1", argument.help)
    given = f":{argument.value}:{value('zsh', argument)}" if argument.value else ""
    name = f"--{argument.name}[{help}]" if argument.is_option else ""
    return quoted(("*" if argument.is_repeated else "") + name + given)


def zsh():
    lines = [f"#compdef {PROGRAM}", f"# zsh completion of {PROGRAM}, written by .ci/completions"]
    for kind, text in LISTS.items():
        names = f'    local -a names=(${{(f)"$({text})"}})'
        lines += [f"_{PROGRAM}_{kind}s() {{", names, '    compadd "$@" -a names', "}"]
    lines += ["local -a commands=(", *(f"    {quoted(f'{it.name}:{it.about}')}" for it in COMMANDS), ")",
              "if ((CURRENT == 2)) || [[ $words[2] == help ]]; then", "    _describe command commands",
              "    return", "fi", "local command=$words[2]", "shift words", "((CURRENT -= 1))", "case $command in"]
    for it in COMMANDS:
        arguments = " \\\n".join(f"        {zsh_argument(argument)}" for argument in it.arguments)
        lines += [f"{it.name})", "    _arguments \\", arguments, "    ;;"]
    return "\n".join([*lines, "esac", ""])


def fish():
    lines = [f"# fish completion of {PROGRAM}, written by .ci/completions"]
    for program in (PROGRAM, PLUGIN):
        lines += [f"complete -c {program} -f", *fish_lines(f"complete -c {program}", "")]
    lines += fish_lines("complete -c cargo", "__fish_seen_subcommand_from manifest-check; and ")
    return "\n".join([*lines, ""])


def fish_lines(complete, within):
    """Returns the lines of fish for a command, which apply under a condition."""
    seen = f"{within}__fish_seen_subcommand_from"
    lines = [f"{complete} -n '{within}not __fish_seen_subcommand_from {NAMES}' -f -a {it.name} -d {quoted(it.about)}"
             for it in COMMANDS]
    lines += [f"{complete} -n '{seen} help' -f -a '{NAMES}'"]
    for it in COMMANDS:
        for option in options(it):
            letter = f" -s {option.letter}" if option.letter else ""
            takes = value("fish", option) if option.value else ""
            lines += [f"{complete} -n '{seen} {it.name}' -l {option.name}{letter}{takes} -d {quoted(option.help)}"]
        if given := place_value("fish", it):
            lines += [f"{complete} -n '{seen} {it.name}'{given}"]
    return lines


# ---- the files

FILES = {
    f"man/man1/{PROGRAM}.1": man_page(),
    "man/man1/cargo-manifest-check.1": f".so man1/{PROGRAM}.1\n",
    f"bash-completion/completions/{PROGRAM}": bash(),
    # bash loads this one for `cargo manifest-check`, with bash-completion 2.12 or newer.
    f"bash-completion/completions/{PLUGIN}": f'. "${{BASH_SOURCE[0]%/*}}/{PROGRAM}"\n',
    f"zsh/site-functions/_{PROGRAM}": zsh(),
    # zsh calls this one for `cargo manifest-check`.
    f"zsh/site-functions/_{PLUGIN}": f'#compdef {PLUGIN}\n_{PROGRAM} "$@"\n',
    f"fish/vendor_completions.d/{PROGRAM}.fish": fish(),
}
