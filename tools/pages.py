#!/usr/bin/env -S python3 -B
"""Makes the manual pages in docs/man and the completions of three shells in completions, of what the program's help says.

    tools/pages.py PROGRAM            compares them with the ones that are there; tries those of bash
    tools/pages.py PROGRAM --write    writes them

PROGRAM is the built program. Prints what differs, and as its last line 'N passed, N failed'. All words come from its help: a
subcommand, an option and its value, the names that a value may be, and the text below.
"""
import collections
import os
import re
import subprocess
import sys
import textwrap

NAME = "eoscheck"
TOP = os.path.dirname(os.path.dirname(os.path.abspath(__file__)))

# An option: its spellings, the name of its value ("" for a flag), what it says, and the values that it may have, if listed.
Option = collections.namedtuple("Option", "names value help choices")
# The help of a command: its sentence, how it is used, its parts as lists of (word, sentence), its options, the text below.
Help = collections.namedtuple("Help", "about usage commands arguments options details")


def text_of(program, *words):
    done = subprocess.run([program, *words, "--help"], capture_output=True, text=True, timeout=60)
    if done.returncode or done.stderr:
        sys.exit(f"no help of {words}: {done.stderr}")
    return done.stdout


def rows_of(lines):
    """The words and sentences of a part; a sentence may stand in the lines below its word, further to the right."""
    rows, least = [], min((len(line) - len(line.lstrip()) for line in lines if line.strip()), default=0)
    for line in lines:
        if not line.strip():
            continue
        if len(line) - len(line.lstrip()) > max(least, 6):
            rows[-1][1] = f"{rows[-1][1]} {line.strip()}".strip()
        else:
            word, _, sentence = re.sub(r"  +", "\0", line.strip(), count=1).partition("\0")
            rows.append([word, sentence.strip()])
    return rows


def option_of(word, sentence):
    found = re.fullmatch(r"((?:-\w, )?--[\w-]+)(?: <(.*)>)?(?:\.\.\.)?", word)
    choices = re.search(r" ?\[possible values: (.*)\]$", sentence)
    return Option(
        found[1].split(", "),
        found[2] or "",
        sentence[: choices.start()] if choices else sentence,
        choices[1].split(", ") if choices else [],
    )


def read_help(text):
    about, _, rest = text.partition("\n\n")
    usage, _, rest = rest.partition("\n\n")
    parts = {"Commands:": [], "Arguments:": [], "Options:": []}
    while rest.split("\n", 1)[0] in parts:
        block, _, rest = rest.partition("\n\n")
        head, *lines = block.split("\n")
        parts[head] = rows_of(lines)
    return Help(
        about,
        usage.removeprefix("Usage: "),
        [(word, said) for word, said in parts["Commands:"] if word != "help"],
        [(word.strip("<>[]."), said) for word, said in parts["Arguments:"]],
        [option_of(word, said) for word, said in parts["Options:"]],
        rest.rstrip("\n"),
    )


# ---- manual pages


def roff(text):
    text = text.replace("\\", "\\e").replace("-", "\\-").replace("`", "\\(ga").replace("'", "\\(aq")
    return re.sub(r"^\.", "\\\\&.", text, flags=re.M)


def parted(details):
    """The text below the options, the statuses in it and the examples."""
    found = dict.fromkeys(("Exit status:", "Examples:"), "")
    left = []
    for block in details.split("\n\n"):
        head, _, lines = block.partition("\n")
        if head in found:
            found[head] = lines
        else:
            left.append(block)
    return "\n\n".join(left), found["Exit status:"], found["Examples:"]


def man_page(name, it, others, general):
    """The page of a command; the general statuses are those of the program's own help."""
    lines = [f'.TH "{name.upper()}" "1" "" "{NAME}" "User Commands"', ".SH NAME", f"{roff(name)} \\- {roff(it.about)}"]
    lines.append(".SH SYNOPSIS")
    for usage in it.usage.split("\n"):
        lines += [f".B {roff(usage.strip())}", ".br"]
    lines.pop()
    for head, rows in ("COMMANDS", it.commands), ("ARGUMENTS", it.arguments):
        if rows:
            lines.append(f".SH {head}")
        for word, said in rows:
            lines += [".TP", f".B {roff(word)}", roff(said)]
    lines.append(".SH OPTIONS")
    for option in it.options:
        value = f" <{option.value}>" if option.value else ""
        said = option.help + (f" [{', '.join(option.choices)}]" if option.choices else "")
        lines += [".TP", f".B {roff(', '.join(option.names) + value)}", roff(said)]
    description, statuses, examples = parted(it.details)
    lines += [".SH DESCRIPTION", ".nf", roff(description), ".fi"]
    lines += [".SH EXIT STATUS", ".nf", roff(textwrap.dedent(statuses or general)), ".fi"]
    lines += [".SH EXAMPLES", ".nf", roff(textwrap.dedent(examples)), ".fi"]
    if others:
        lines += [".SH SEE ALSO", *(f".BR {roff(other)} (1)," for other in others[:-1]), f".BR {roff(others[-1])} (1)"]
    return "\n".join(lines) + "\n"


# ---- completions


def kind_of(value):
    """What a value is completed by: files, folders or nothing."""
    return {"FILE": "file", "FOLDER": "folder", "OUT": "folder", "TOPIC-N": "folder"}.get(value.split(".", 1)[0], "")


def begun(option):
    """How a value may begin that isn't one of a list, nor a file."""
    return [f"{count}=" for count in ("transactions", "inputs", "outputs")] if option.value == "COUNT=N" else option.choices


def bash(helps):
    commands = " ".join(word for word, _ in helps[""].commands)
    lines = [
        f"# bash completion of {NAME}; made by tools/pages.py.",
        f"_{NAME}() {{",
        "  local word=${COMP_WORDS[COMP_CWORD]} before=${COMP_WORDS[COMP_CWORD - 1]}",
        "  # bash takes --name=value for three words",
        "  [ \"$word\" = = ] && word=",
        "  [ \"$before\" = = ] && before=${COMP_WORDS[COMP_CWORD - 2]}",
        "  COMPREPLY=()",
        "  if [ \"$COMP_CWORD\" -eq 1 ]; then",
        f"    mapfile -t COMPREPLY < <(compgen -W '{commands} help {names_of(helps[''])}' -- \"$word\")",
        "    return",
        "  fi",
        "  case ${COMP_WORDS[1]} in",
    ]
    for name, it in helps.items():
        if not name:
            continue
        lines += [f"  {name})", "    case $before in"]
        for option in it.options:
            if option.value:
                flag = {"file": "-f", "folder": "-d"}.get(kind_of(option.value))
                given = flag or f"-W '{' '.join(begun(option))}'"
                lines += [f"    {'|'.join(option.names)})", f"      mapfile -t COMPREPLY < <(compgen {given} -- \"$word\")", "      return ;;"]
        lines += ["    esac", "    case $word in", f"    -*) mapfile -t COMPREPLY < <(compgen -W '{names_of(it)}' -- \"$word\") ;;"]
        words = [word for word, _ in it.arguments]
        flag = "-d" if "folder" in map(kind_of, words) else "-W ''" if words == ["NAME"] else "-f"
        lines += [f"    *) mapfile -t COMPREPLY < <(compgen {flag} -- \"$word\") ;;", "    esac ;;"]
    return "\n".join([*lines, "  esac", "}", f"complete -o filenames -F _{NAME} {NAME}", ""])


def names_of(it):
    return " ".join(name for option in it.options for name in option.names)


def quoted(text):
    return text.replace("'", "'\\''")


def zsh(helps):
    lines = [f"#compdef {NAME}", f"# zsh completion of {NAME}; made by tools/pages.py.", f"_{NAME}() {{", "  local -a commands", "  commands=("]
    lines += [f"    '{quoted(word)}:{quoted(said.replace(':', ' '))}'" for word, said in helps[""].commands]
    lines += ["  )", "  if (( CURRENT == 2 )); then", "    _describe command commands", *zsh_arguments(helps[""], "    "), "    return", "  fi", "  case $words[2] in"]
    for name, it in helps.items():
        if name:
            lines += [f"    {name})", "      shift words; (( CURRENT-- ))", *zsh_arguments(it, "      "), "      ;;"]
    return "\n".join([*lines, "  esac", "}", f'_{NAME} "$@"', ""])


def zsh_arguments(it, space):
    specs = []
    plain = str.maketrans({"[": "(", "]": ")", ":": " "})
    for option in it.options:
        said = quoted(option.help.translate(plain))
        action = f"({' '.join(begun(option))})" if begun(option) else {"file": "_files", "folder": "_files -/"}.get(kind_of(option.value), " ")
        value = f":{option.value.translate(plain)}:{action}" if option.value else ""
        specs += [f"'*{name}[{said}]{value}'" for name in option.names]
    for word, said in it.arguments:
        action = {"file": "_files", "folder": "_files -/"}.get(kind_of(word), " ")
        specs.append(f"'*:{quoted(said.translate(plain))}:{action}'")
    return [f"{space}_arguments \\", *(f"{space}  {spec} \\" for spec in specs[:-1]), f"{space}  {specs[-1]}"]


def fish(helps):
    lines = [f"# fish completion of {NAME}; made by tools/pages.py."]
    for word, said in helps[""].commands:
        lines.append(f"complete -c {NAME} -n __fish_use_subcommand -f -a {word} -d '{fish_text(said)}'")
    for name, it in helps.items():
        when = f"'__fish_seen_subcommand_from {name}'" if name else "__fish_use_subcommand"
        for option in it.options:
            words = "".join(f" -l {one[2:]}" if one.startswith("--") else f" -s {one[1:]}" for one in option.names)
            if begun(option):
                words += f" -x -a '{' '.join(begun(option))}'"
            elif kind_of(option.value) == "folder":
                words += " -x -a '(__fish_complete_directories)'"
            elif option.value:
                words += " -r" if kind_of(option.value) else " -x"
            lines.append(f"complete -c {NAME} -n {when}{words} -d '{fish_text(option.help)}'")
        if name and it.arguments and all(kind_of(word) == "folder" for word, _ in it.arguments):
            lines.append(f"complete -c {NAME} -n {when} -f -a '(__fish_complete_directories)'")
    return "\n".join([*lines, ""])


def fish_text(text):
    return text.replace("\\", "\\\\").replace("'", "\\'")


# ---- all of them


def pages(program):
    helps = {"": read_help(text_of(program))}
    for word, _ in helps[""].commands:
        helps[word] = read_help(text_of(program, word))
    full = lambda name: f"{NAME}-{name}" if name else NAME
    made = {f"docs/man/{full(name)}.1": man_page(full(name), it, [full(other) for other in helps if other != name], parted(helps[""].details)[1]) for name, it in helps.items()}
    made[f"completions/{NAME}.bash"] = bash(helps)
    made[f"completions/_{NAME}"] = zsh(helps)
    made[f"completions/{NAME}.fish"] = fish(helps)
    return helps, made


def completed(words):
    """What bash offers for the last of these words."""
    script = f"source completions/{NAME}.bash; COMP_WORDS=(\"$@\"); COMP_CWORD=$(($# - 1)); _{NAME}; printf '%s\\n' \"${{COMPREPLY[@]}}\""
    done = subprocess.run(["bash", "-c", script, "_", *words], cwd=TOP, capture_output=True, text=True, timeout=60)
    return done.stderr or sorted(done.stdout.split())


def offered():
    """Folders and files, where words name them: also behind =."""
    for words, want in (
        (["check", "tests/evid"], ["tests/evidence"]),
        (["check", "--json", "tests/evid"], ["tests/evidence"]),
        (["explain", "tests/stor"], ["tests/stories"]),
        (["fold", "tests/evid"], ["tests/evidence"]),
        (["fold", "--out", "tests/evid"], ["tests/evidence"]),
        (["fold", "--manifest", "tests/tables.p"], ["tests/tables.py"]),
        (["check", "--report", "tests/tables.p"], ["tests/tables.py"]),
        (["check", "--report", "=", "tests/tables.p"], ["tests/tables.py"]),
        (["dump", "tests/tables.p"], ["tests/tables.py"]),
        (["simulate", "--schedule", "tests/tables.p"], ["tests/tables.py"]),
        (["check", "--expect", "in"], ["inputs="]),
        (["check", "--expect", "=", ""], ["inputs=", "outputs=", "transactions="]),
        (["check", "--workers", ""], []),
    ):
        found = completed([NAME, *words])
        yield None if found == want else f"bash offers {found} for {words}"


def wrong_with(helps, made):
    for path, text in made.items():
        there = os.path.join(TOP, path)
        if not os.path.isfile(there) or open(there, encoding="utf-8").read() != text:
            yield f"{path} isn't what the help says: tools/pages.py PROGRAM --write"
        else:
            yield None
    for folder, ending in ("docs/man", ".1"), ("completions", ""):
        for file in sorted(os.listdir(os.path.join(TOP, folder))) if os.path.isdir(os.path.join(TOP, folder)) else []:
            yield None if f"{folder}/{file}" in made else f"{folder}/{file} is of no command"
    commands = [word for word, _ in helps[""].commands]
    yield None if set(completed([NAME, "c"])) == {it for it in commands if it.startswith("c")} else f"bash offers {completed([NAME, 'c'])}"
    for name in commands:
        for heading in "EXIT STATUS", "EXAMPLES":
            page = made[f"docs/man/{NAME}-{name}.1"]
            yield None if re.search(rf"^\.SH {heading}\n\.nf\n(?!\.fi)", page, flags=re.M) else f"the page of {name} has no {heading}"
        names = sorted(it for option in helps[name].options for it in option.names if it.startswith("--"))
        found = completed([NAME, name, "--"])
        yield None if found == names else f"bash offers {found} for {name}"
        for option in helps[name].options:
            if option.choices:
                found = completed([NAME, name, option.names[-1], ""])
                yield None if found == sorted(option.choices) else f"bash offers {found} for {option.names[-1]}"
    yield from offered()


def main():
    program = os.path.abspath(sys.argv[1])
    helps, made = pages(program)
    if "--write" in sys.argv[2:]:
        for path, text in made.items():
            os.makedirs(os.path.dirname(os.path.join(TOP, path)), exist_ok=True)
            with open(os.path.join(TOP, path), "w", encoding="utf-8") as file:
                file.write(text)
    found = list(wrong_with(helps, made))
    for text in filter(None, found):
        print(f"FAILED: {text}")
    print(f"{found.count(None)} passed, {len(found) - found.count(None)} failed")


if __name__ == "__main__":
    main()
