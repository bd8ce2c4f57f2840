#!/usr/bin/env python3
"""Completions of bash, zsh and fish from the help of the tool: `completions.py FOLDER < HELP`. The usage has the
commands with their options; options of the list at the end that stand in no usage are of every command."""
import pathlib
import re
import sys


def listed(text):
    """The options of the list, each with its other name and whether it takes a value."""
    lines = re.findall(r"^(?:(-\w), )?(--[\w-]+)( [A-Z]+)?  ", text, re.MULTILINE)
    return {long: (short, bool(value)) for short, long, value in lines}


def read(text):
    """Of each command its options with the words of each: a list, empty for anything, or None for none."""
    options, usage = listed(text), text.split("\n\n")[0]
    other = {short: long for long, (short, _) in options.items() if short}
    shown = {other.get(name, name) for name in re.findall(r"\[(--?[\w-]+)", usage)}
    common = {name: [] if valued else None for name, (_, valued) in options.items() if name not in shown}
    commands = {}
    for line in usage.replace("usage:", "").splitlines():
        program, name = re.match(r"\s*(\w+) ([a-z]+(?: [a-z]+)?)(?: |$)", line).groups()
        assert program == "suontarvi", line
        found = {}
        for option, value in re.findall(r"\[(--?[\w-]+)(?: (\S+))?\]", line):
            words = value.split("|") if "|" in value else [] if value else None
            found[other.get(option, option)] = words
        commands[name] = found
    return commands, common, {long: short for long, (short, _) in options.items() if short}


def groups(commands):
    """The second words of each first one that has some."""
    found = {}
    for name in commands:
        if " " in name:
            first, second = name.split()
            found.setdefault(first, []).append(second)
    return found


def valued(commands, common):
    """Every option with a value, and its words."""
    every = {**common}
    for options in commands.values():
        every.update(options)
    return {name: words for name, words in sorted(every.items()) if words is not None}


def bash(commands, common, shorts):
    firsts = " ".join(sorted({name.split()[0] for name in commands}))
    reply = 'COMPREPLY=($(compgen {} -- "$word"))'.format
    out = ["# Completion of suontarvi for bash.", "_suontarvi() {"]
    out += ["    local word=${COMP_WORDS[COMP_CWORD]} before=${COMP_WORDS[COMP_CWORD-1]}", "    COMPREPLY=()"]
    out += ["    case $before in"]
    for name, words in valued(commands, common).items():
        shape = f"{name}|{shorts[name]}" if name in shorts else name
        kind = '-W "' + " ".join(words) + '"' if words else "-f"
        out.append(f"        {shape}) {reply(kind)}; return ;;")
    out += ["    esac", '    if [ "$COMP_CWORD" = 1 ]; then']
    kind = f'-W "{firsts} --help --version"'
    out += [f"        {reply(kind)}", "        return", "    fi"]
    for first, seconds in groups(commands).items():
        kind = '-W "' + " ".join(seconds) + '"'
        out += [f'    if [ "$before" = {first} ] && [ "$COMP_CWORD" = 2 ]; then', f"        {reply(kind)}"]
        out += ["        return", "    fi"]
    out += [f'    local options="{" ".join(common)}"', '    case "${COMP_WORDS[1]} ${COMP_WORDS[2]}" in']
    for name, options in commands.items():
        shape = f'"{name}"' if " " in name else f'"{name} "*'
        out.append(f'        {shape}) options="$options {" ".join(options)}" ;;')
    out += ["    esac", "    case $word in"]
    kind = '-W "$options"'
    out += [f"        -*) {reply(kind)} ;;", f"        *) {reply('-f')} ;;", "    esac", "}"]
    return "\n".join(out + ["complete -o filenames -F _suontarvi suontarvi"]) + "\n"


def zsh(commands, common, shorts):
    firsts = " ".join(sorted({name.split()[0] for name in commands}))
    out = ["#compdef suontarvi", "# Completion of suontarvi for zsh.", "_suontarvi() {", "    local -a options"]
    out += [f"    if (( CURRENT == 2 )); then compadd -- {firsts} --help --version; return; fi"]
    for first, seconds in groups(commands).items():
        words = " ".join(seconds)
        out.append(f"    if [[ $words[2] == {first} && CURRENT -eq 3 ]]; then compadd -- {words}; return; fi")
    out += ["    case $words[CURRENT-1] in"]
    for name, words in valued(commands, common).items():
        shape = f"{name}|{shorts[name]}" if name in shorts else name
        out.append(f"        {shape}) {'compadd -- ' + ' '.join(words) if words else '_files'}; return ;;")
    out += ["    esac", f"    options=({' '.join(common)})", '    case "$words[2] $words[3]" in']
    for name, options in commands.items():
        shape = f'"{name}"' if " " in name else f'"{name} "*'
        out.append(f"        {shape}) options+=({' '.join(options)}) ;;")
    out += ["    esac", "    if [[ $words[CURRENT] == -* ]]; then compadd -- $options; else _files; fi", "}"]
    return "\n".join(out + ['_suontarvi "$@"']) + "\n"


def fish(commands, common, shorts):
    def option(name, words):
        short = f" -s {shorts[name][1:]}" if name in shorts else ""
        kind = "-f" if words is None else f"-x -a '{' '.join(words)}'" if words else "-r"
        return f"{kind}{short} -l {name[2:]}"

    firsts = " ".join(sorted({name.split()[0] for name in commands}))
    out = ["# Completion of suontarvi for fish."]
    out.append(f"complete -c suontarvi -n __fish_use_subcommand -f -a '{firsts}'")
    for first, seconds in groups(commands).items():
        words = " ".join(seconds)
        condition = f"__fish_seen_subcommand_from {first}; and not __fish_seen_subcommand_from {words}"
        out.append(f"complete -c suontarvi -n '{condition}' -f -a '{words}'")
    for name, options in commands.items():
        seen = "; and ".join(f"__fish_seen_subcommand_from {word}" for word in name.split())
        out += [f"complete -c suontarvi -n '{seen}' {option(*pair)}" for pair in options.items()]
    out += [f"complete -c suontarvi {option(*pair)}" for pair in common.items()]
    return "\n".join(out) + "\n"


if __name__ == "__main__":
    folder, known = pathlib.Path(sys.argv[1]), read(sys.stdin.read())
    for name, made in (("suontarvi.bash", bash), ("_suontarvi", zsh), ("suontarvi.fish", fish)):
        (folder / name).write_text(made(*known))
