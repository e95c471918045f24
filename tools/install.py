#!/usr/bin/env python3
"""Puts the program where the PATH finds it, with its man page, its completions for bash and zsh, and its client in Python.

PREFIX is ~/.local where it isn't given. What was installed stands, file by file, in PREFIX/share/pgserial/installed, and
`uninstall` removes that and nothing else.
"""
import argparse
import os
import re
import shlex
import shutil
import subprocess
import sys
import tempfile

HERE = os.path.dirname(os.path.abspath(__file__))
TOP = os.path.dirname(HERE)
LIST = "share/pgserial/installed"
# What is installed in the program's place where it isn't proved.
TELLING = """#!/bin/sh
# Runs an unproved program, and tells so: `./pgserial install --unproved` has written this.
program={program}
echo "pgserial: unproved (installed without its proof)" >&2
case "$# ${{1-}}" in
  "1 --version" | "1 -V") version=$("$program" "$1") && echo "$version (unproved)"; exit ;;
esac
exec "$program" "$@"
"""


# ---- what the help says


class Help:
    """What a command's help says: what it is, how it is called, and lists of terms, each list below its heading."""

    def __init__(self, text):
        self.about, self.usage, self.lists = "", "", {}
        heading = None
        for line in text.splitlines():
            item = re.match(r" +(\S.*?)  +(\S.*)", line)
            if line.startswith("Usage: "):
                self.usage = line[len("Usage: "):]
            elif line.endswith(":") and not line.startswith(" "):
                heading = self.lists.setdefault(line[:-1], [])
            elif item and heading is not None:
                heading.append([item[1], item[2]])
            elif line.startswith(" ") and heading:
                heading[-1][1] += " " + line.strip()
            elif line and heading is None:
                self.about += (" " if self.about else "") + line

    def options(self):
        """The options: the words of each, its value's name, if it has one, and what it does."""
        for term, text in self.lists.get("Options", []):
            value = re.search(r"<(\w+)>", term)
            yield re.findall(r"--?[\w-]+", term), value and value[1], text


def helps_of(program):
    """The help of the program, and that of each command by its name."""
    def ask(*words):
        return subprocess.run([program, *words, "--help"], stdout=subprocess.PIPE, text=True, check=True).stdout

    whole = Help(ask())
    others = next((it for heading, it in whole.lists.items() if heading.startswith("Commands with")), [])
    told = {term: text for term, text in [*whole.lists["Commands"], *others] if " " not in term and term != "help"}
    commands = {name: Help(ask(name)) for name in told}
    # Ways of a command that have a line of their own, as `run SCRIPT --why`.
    for term, text in others:
        name, *words = term.split()
        for option in [it for it in words if it.startswith("-")]:
            commands[name].lists["Options"].insert(-1, [option, text])
    for name, text in told.items():
        commands[name].short = text
    return whole, commands


def roff(text):
    text = text.replace("\\", "\\e").replace("-", "\\-")
    return "\\&" + text if text.startswith((".", "'")) else text


def man_page(whole, commands, version):
    """The man page."""
    lines = [f'.TH PGSERIAL 1 "" "{version}"', ".SH NAME", f"pgserial \\- {roff(whole.about)}", ".SH SYNOPSIS"]
    for command in commands.values():
        lines += [f".B {roff(command.usage)}", ".br"]
    lines += [".SH COMMANDS"]
    for name, command in commands.items():
        lines += [f".SS {name}", roff(command.about) + ".", ".PP", f".B {roff(command.usage)}"]
        for heading in ("Arguments", "Options"):
            for term, text in command.lists.get(heading, []):
                lines += [".TP", f".B {roff(term)}", roff(text)]
    return "\n".join(lines) + "\n"


def bash_completion(commands):
    cases = [f"    {name}) options='{' '.join(word for words, _, _ in command.options() for word in words)}' ;;"
             for name, command in commands.items()]
    return "\n".join([
        "# bash completion for pgserial", "_pgserial() {", "  local word=${COMP_WORDS[COMP_CWORD]} options=",
        f"  [ \"$COMP_CWORD\" -gt 1 ] || options='{' '.join(commands)} help --help --version'",
        "  [ \"$COMP_CWORD\" -eq 1 ] || case ${COMP_WORDS[1]} in", *cases, "  esac",
        "  [[ $COMP_CWORD -gt 1 && $word != -* ]] || COMPREPLY=($(compgen -W \"$options\" -- \"$word\"))", "}",
        "complete -o default -F _pgserial pgserial", ""])


def zsh_option(words, value, text):
    """An option, as zsh's _arguments reads it."""
    told = re.sub(r"([\[\]:\\])", r"\\\1", text).replace("'", "'\\''")
    taken = f":{value}:{'_files' if value == 'FILE' else ' '}" if value else ""
    return " ".join(f"'({' '.join(words)}){word}[{told}]{taken}'" for word in words)


def zsh_completion(commands):
    def quoted(text):
        return text.replace(":", "\\:").replace("'", "'\\''")

    lines = ["#compdef pgserial", "_pgserial() {", "  local -a commands=("]
    lines += [f"    '{name}:{quoted(command.short)}'" for name, command in commands.items()]
    lines += ["  )", "  if (( CURRENT == 2 )); then _describe command commands; return; fi", "  local command=${words[2]}",
              "  shift words; (( CURRENT-- ))", "  case $command in"]
    for name, command in commands.items():
        options = " ".join(zsh_option(*option) for option in command.options())
        lines += [f"    {name}) _arguments {options} '*:file:_files' ;;"]
    return "\n".join([*lines, "  esac", "}", '_pgserial "$@"', ""])


# ---- files


class Installed:
    """What was installed below a prefix: folders that were made for it, whose names end in a slash, and files."""

    def __init__(self, prefix):
        self.prefix, self.names = prefix, []
        if os.path.exists(self.path(LIST)):
            with open(self.path(LIST), encoding="utf-8") as file:
                self.names = file.read().splitlines()

    def path(self, name):
        return os.path.join(self.prefix, name)

    def add_folder(self, name):
        """Makes a folder, and those above it."""
        if os.path.isdir(self.path(name)):
            return
        above = os.path.dirname(name)
        if above:
            self.add_folder(above)
        os.makedirs(self.path(name), exist_ok=True)
        self.names.append(name + "/")

    def add(self, name, data, mode):
        """Writes a file, whole or not at all."""
        self.add_folder(os.path.dirname(name))
        new, made = tempfile.mkstemp(dir=os.path.dirname(self.path(name)), prefix=".pgserial-")
        try:
            with os.fdopen(new, "wb") as file:
                file.write(data)
            os.chmod(made, mode)
            os.replace(made, self.path(name))
        except BaseException:
            os.remove(made)
            raise
        if name not in self.names:
            self.names.append(name)

    def remove_compiled(self, name):
        """Removes what Python has compiled of a file, and the folder of that where it is empty."""
        folder, stem = os.path.join(os.path.dirname(self.path(name)), "__pycache__"), os.path.basename(name).partition(".py")[0]
        if name.endswith(".py") and os.path.isdir(folder):
            for compiled in [it for it in os.listdir(folder) if it.startswith(f"{stem}.") and it.endswith(".pyc")]:
                os.remove(os.path.join(folder, compiled))
            if not os.listdir(folder):
                os.rmdir(folder)

    def keep(self):
        """Writes the list."""
        self.add(LIST, "".join(f"{name}\n" for name in dict.fromkeys([*self.names, LIST])).encode(), 0o644)

    def remove(self, names):
        """Removes files, and then the folders that were made for them, where they are empty."""
        for name in [it for it in names if not it.endswith("/")]:
            if os.path.lexists(self.path(name)):
                os.remove(self.path(name))
            self.remove_compiled(name)
        for name in sorted((it for it in names if it.endswith("/")), reverse=True):
            try:
                os.rmdir(self.path(name))
            except OSError:
                continue
        self.names = [it for it in self.names if os.path.lexists(self.path(it))]


def packages(prefix):
    """The folder below the prefix in which Python looks for packages."""
    known = [it for it in sys.path if it.startswith(prefix + os.sep) and it.endswith(("site-packages", "dist-packages"))]
    path = known[0] if known else os.path.join(prefix, f"lib/python{sys.version_info[0]}.{sys.version_info[1]}/site-packages")
    return os.path.relpath(path, prefix)


def client(prefix):
    """The files of the client in Python, as a package: the name below the prefix, and where it is."""
    source, to = os.path.join(TOP, "clients/python"), os.path.join(packages(prefix), "pgserial")
    if os.path.exists(f"{source}/pgserial.py"):
        yield f"{to}/__init__.py", f"{source}/pgserial.py"
    for folder, folders, names in os.walk(f"{source}/pgserial"):
        folders[:] = sorted(it for it in folders if it != "__pycache__")
        for name in sorted(it for it in names if it.endswith((".py", ".typed"))):
            path = os.path.join(folder, name)
            yield os.path.join(to, os.path.relpath(path, f"{source}/pgserial")), path


def find_program(unproved):
    """The program that is installed, and whether it is proved."""
    words = ["bash", "-c", 'top=$1; . "$0"; choose; echo "$told"; echo "$folder"', os.path.join(HERE, "sources"), TOP]
    told, folder = subprocess.run(words, stdout=subprocess.PIPE, text=True, check=True).stdout.splitlines()
    if told == "proved":
        return os.path.join(folder, "pgserial"), True
    if not unproved:
        sys.exit("pgserial: no proved program of these sources is there: first ./pgserial build, or else install --unproved")
    found = subprocess.run([os.path.join(HERE, "quick.py")], stdout=subprocess.PIPE, text=True)
    if found.returncode:
        sys.exit(found.returncode)
    return found.stdout.strip(), False


def files(prefix, program, is_proved):
    """What is installed: the name below the prefix, the bytes, and the mode."""
    with open(program, "rb") as file:
        data = file.read()
    if is_proved:
        yield "bin/pgserial", data, 0o755
    else:
        real = "lib/pgserial/pgserial"
        yield real, data, 0o755
        yield "bin/pgserial", TELLING.format(program=shlex.quote(os.path.join(prefix, real))).encode(), 0o755
    whole, commands = helps_of(program)
    version = subprocess.run([program, "--version"], stdout=subprocess.PIPE, text=True, check=True).stdout.strip()
    version += "" if is_proved else " (unproved)"
    yield "share/man/man1/pgserial.1", man_page(whole, commands, version).encode(), 0o644
    yield "share/bash-completion/completions/pgserial", bash_completion(commands).encode(), 0o644
    yield "share/zsh/site-functions/_pgserial", zsh_completion(commands).encode(), 0o644
    for name, path in client(prefix):
        with open(path, "rb") as file:
            yield name, file.read(), 0o644


def install(prefix, unproved):
    program, is_proved = find_program(unproved)
    installed = Installed(prefix)
    before, made = installed.names, list(files(prefix, program, is_proved))
    for name, _, _ in made:
        if name not in before and os.path.lexists(installed.path(name)):
            sys.exit(f"pgserial: {installed.path(name)} is there, and not of an earlier install: remove it first")
    try:
        for file in made:
            installed.add(*file)
    finally:
        installed.keep()
    now = {name for name, _, _ in made} | {LIST}
    installed.remove([it for it in before if it not in now and not it.endswith("/")])
    installed.keep()
    print(f"installed {'' if is_proved else 'an unproved '}{installed.path('bin/pgserial')}, and {len(made) - 1} files more")
    if os.path.join(prefix, "bin") not in os.environ.get("PATH", "").split(":"):
        print(f"{os.path.join(prefix, 'bin')} isn't on the PATH")
    if os.path.join(prefix, packages(prefix)) not in sys.path:
        print(f"the client in Python is found once PYTHONPATH has {os.path.join(prefix, packages(prefix))}")


def uninstall(prefix):
    installed = Installed(prefix)
    if not installed.names:
        sys.exit(f"pgserial: nothing is installed below {prefix}: there is no {installed.path(LIST)}")
    installed.remove(installed.names)
    print(f"uninstalled what was below {prefix}")


def reason(error):
    """Why a file or a folder can't be had, in words alone."""
    return f"{error.filename}: {error.strerror}" if error.filename else str(error)


def main():
    parser = argparse.ArgumentParser(prog="pgserial", description=__doc__, formatter_class=argparse.RawDescriptionHelpFormatter)
    ways = parser.add_subparsers(dest="way", required=True)
    for name in ("install", "uninstall"):
        way = ways.add_parser(name, description=__doc__, formatter_class=argparse.RawDescriptionHelpFormatter)
        way.add_argument("--prefix", metavar="DIR", default=os.path.expanduser("~/.local"), help="where bin/, lib/ and share/ are, or are made; ~/.local where it isn't given")
        if name == "install":
            way.add_argument("--unproved", action="store_true", help="where no proved program of these sources is there, install one that is compiled without proof; it tells so whenever it runs")
    asked = parser.parse_args()
    if not asked.prefix:
        parser.exit(2, f"pgserial {asked.way}: error: --prefix DIR: DIR is empty\n")
    prefix = os.path.abspath(asked.prefix)
    try:
        install(prefix, asked.unproved) if asked.way == "install" else uninstall(prefix)
    except OSError as error:
        sys.exit(f"pgserial: {reason(error)}")


if __name__ == "__main__":
    main()
