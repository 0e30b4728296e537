"""The comparisons of editors/ for tools/pages: words and signs with the lexers, patterns with pages of faults."""
import json
import re
import shutil
import subprocess
import tempfile
from pathlib import Path

import lsp_names

TOP = Path(__file__).resolve().parent.parent
VIM = TOP / "editors" / "vim"
VSCODE = TOP / "editors" / "vscode"
DATA = TOP / "crates" / "rows" / "data"
LEXERS = {"source": "f_lexer", "tal": "t_text"}
# The words of the language server.
SERVED = {"source": lsp_names.SOURCE_WORDS, "tal": lsp_names.TAL_WORDS}
# What Vim is asked: the place and the first line of each fault that it finds.
ASKED = "for i in getqflist() | echo i.lnum . ' ' . i.col . ' ' . split(i.text, '\\n')[0] | endfor"


def read(path):
    """The text of a file."""
    return path.read_text(encoding="utf-8")


# Words and signs


def tokens_of(lexer):
    """The reserved words and the signs of a lexer, read off its code."""
    code = read(TOP / "crates" / lexer / "src" / "scan.rt")
    words = re.findall(r'(?:== |bytes, |^ +)b"(\w+)"', code, re.M)
    pairs = [a + b for a, b in re.findall(r"is_pair\(text, at, b'(.)', b'(.)'\)", code)]
    signs = re.findall(r"b'(\W)' => Some", code)
    return words, signs + pairs


def unlike_words(language):
    """Words and signs of a language that its files do not have."""
    words, signs = tokens_of(LEXERS[language])
    vim = read(VIM / "syntax" / f"talc_{language}.vim")
    grammar = json.loads(read(VSCODE / "syntaxes" / f"talc_{language}.tmLanguage.json"))
    keywords = {word for line in re.findall(r"^syntax keyword \w+ (.*)$", vim, re.M) for word in line.split()}
    matches = re.findall(r"^syntax match \w+(?:Operator|Bracket) /(.*)/$", vim, re.M)
    patterns = [(it["name"], re.compile(it["match"])) for it in grammar["patterns"]]
    if "/--.*$/" not in vim or not patterns[0][1].fullmatch("-- a comment"):
        yield f"editors: no comments in the files of talc_{language}"
    if set(words) != SERVED[language]:
        yield f"tools/lsp_names.py: talc_{language} has the words {' '.join(words)}"
    emacs = read(TOP / "editors" / "emacs" / "talc.el")
    for word in words:
        if f'"{word}"' not in emacs:
            yield f"editors: talc.el has no word {word}"
        if word not in keywords:
            yield f"editors: talc_{language}.vim has no word {word}"
        if not any(kind.startswith(("keyword", "storage")) and it.fullmatch(word) for kind, it in patterns):
            yield f"editors: talc_{language}.tmLanguage.json has no word {word}"
    for sign in signs:
        if not any(re.fullmatch(it.replace(r"\|", "|"), sign) for it in matches):
            yield f"editors: talc_{language}.vim has no sign {sign}"
        kinds = ("keyword.operator", "punctuation")
        if not any(kind.startswith(kinds) and it.fullmatch(sign) for kind, it in patterns):
            yield f"editors: talc_{language}.tmLanguage.json has no sign {sign}"


# Faults


def places(run):
    """The file, the line, the column, the code and the words of each fault that `explain` shows."""
    for command, lines in run:
        found = re.fullmatch(r"(.+):(\d+):(\d+): (\w+) (.+) \(bytes .*\)", lines[0]) if lines else None
        if command.startswith("talc explain ") and found:
            yield command.split()[2], lines[0], found.groups()


def unlike_extension(run, changes):
    """What is wrong with package.json: files that are not there, another version, a pattern that finds no place."""
    package = json.loads(read(VSCODE / "package.json"))
    given = package["contributes"]
    paths = [package["main"], *(it["configuration"] for it in given["languages"])]
    paths += [it["path"] for it in given["grammars"]]
    for path in paths:
        if not (VSCODE / path).is_file():
            yield f"editors/vscode/package.json: no {path}"
    if f"\n## {package['version']}\n" not in changes:
        yield "editors/vscode/package.json: CHANGELOG.md has no such version"
    (pattern,) = given["problemMatchers"][0]["pattern"]
    for _, line, wanted in places(run):
        found = re.fullmatch(pattern["regexp"], line)
        if not found:
            yield f"editors/vscode/package.json: the problem matcher does not find `{line}`"
        elif tuple(found[pattern[it]] for it in ("file", "line", "column", "code", "message")) != wanted:
            yield f"editors/vscode/package.json: the problem matcher finds another place in `{line}`"


def unlike(run, changes):
    """All that is not as it must be, by the commands of crates/rows and by CHANGELOG.md."""
    return [*(it for language in LEXERS for it in unlike_words(language)), *unlike_extension(run, changes)]


def found_by_vim(program, name, words):
    """The places of faults that Vim has after `:make` with these words."""
    with tempfile.TemporaryDirectory(prefix="talc-vim-") as room:
        asked = [f"set rtp^={VIM}", f"let g:talc_program='{program}'", f"edit {DATA / name}", "compiler talc",
                 f"silent make! {words}", f"redir! > {room}/said", ASKED, "redir END", "qa!"]
        commands = [it for command in asked for it in ("-c", command)]
        subprocess.run(["vim", "-Nu", "NONE", "-n", "-es", *commands], capture_output=True, check=False, timeout=60)
        return read(Path(room, "said")).split("\n")[1:] if Path(room, "said").exists() else []


def misplaced(program, run):
    """Faults of which Vim, where it is there, finds another place, by `explain` or by what shows the place in bytes."""
    for name, _, (_, line, column, code, about) in places(run) if shutil.which("vim") else []:
        if not (DATA / name).exists():
            continue
        in_bytes = "check" if name.endswith(".tal") else "typeof"
        explained, told = (found_by_vim(program, name, words) for words in ("", in_bytes))
        if explained != [f"{line} {column} {code} {about}"]:
            yield f"editors/vim/compiler/talc.vim: of {name} Vim has {explained}"
        if code != "E15" and [it.split(" ")[:3] for it in told] != [[line, column, code]]:
            yield f"editors/vim/compiler/talc.vim: of {name} Vim has {told} by `{in_bytes}`"
