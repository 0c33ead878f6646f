"""Writes in Rust what Rattle says in other words, and stops at a form that isn't known."""
from __future__ import annotations

import re

from source import COMMENT, END, LITERAL, Source

# Ported crates of which the package `rattle` has what is used here.
_PORTED = "clap|bumpalo|arrayvec|smallvec|itoa|rand_pcg"
# Of the paths of std: what `rattle` has instead, and what Rust's std has in the same form.
_OF_RATTLE = r"std::(?:alloc|collections|env|marker::Brand|process::Abort|sync::ledger|test)\b"
_OF_RUST = r"std::(?:array|cmp|convert|error::Error|fmt|io|iter|mem|num|ops|process::ExitCode|slice|str)\b"
_ATTRIBUTES = r"(?:derive\((?:Clone|Copy|Debug|Default|PartialEq|Eq|, )+\)|inline|inline\(always\)|cfg\(test\)|test)"
_MACROS = "matches|unreachable|write|debug_assert|assert|assert_eq|rattle::format|rattle::vec"
# What Rattle's prelude has: the names of `rattle`, and the sign that a file needs them.
_PRELUDE = {
    "Box": r"(?<![\w:])Box\b",
    "Clone": r"(?<![\w:])Clone\b|\.clone\(",
    "HostRuntime": r"\bHostRuntime\b",
    "String": r"(?<![\w:])String\b",
    "TryCollect": r"\.try_(?:collect|to_vec)\(",
    "Vec": r"(?<![\w:])Vec\b",
}

_CALL = r"(\w[\w.:]*(?:\([^{}\n]*\))?)"

_REPLACEMENTS = (
    (r"^[ \t]*#\[error\([^\]]*\)\]\n", ""),
    (r"^use thiserror::Error;\n", ""),
    (r"(<\w+): Drop>", r"\1>"),
    (r"^((?:pub )?trait \w+): Drop \{", r"\1: Sized {"),
    (r"\brand_core::utils::", "rand_pcg::"),
    (rf"(?<![\w:])({_PORTED})::", r"rattle::\1::"),
    (rf"(?<![\w:])(?={_OF_RATTLE})std::", "rattle::"),
    (r"\bprove!\(", "debug_assert!("),
    (r"\b(format|vec)!([\[(])in (\w+);", r"rattle::\1!\2\3;"),
    (r"\b(assert|assert_eq)!\((\s*)&?rt;\s*", r"\1!(\2"),
    (r"\.(collect|to_vec)\((?!\))", r".try_\1("),
    # Rust's own method takes no reference to a reference
    (r"\b(\w+)\.strip_prefix\((\w+)\)", r"rattle::strip_prefix(\1, \2)"),
    # the file that starts the program calls it
    (r"^fn main\(", "pub fn main("),
    # shorter forms of Rust
    (r"\bmatch (\w+) \{\s*([^{}]*?) => true,\s*_ => false,\s*\}", r"matches!(\1, \2)"),
    (rf"\bmatch {_CALL} \{{\s*Some\((\w+)\) => \2,\s*None => (\d+),\s*\}}", r"\1.unwrap_or(\3)"),
    (rf"\bmatch {_CALL} \{{\s*Some\((\w+)\) => Some\(([^?;\n]*)\),\s*None => None,\s*\}}", r"\1.map(|\2| \3)"),
    (r"\|(\w+)\| (\w+)\(\1\)(?=\))", r"\2"),
    (r"\b(\d+) <= (\w+) && \2 <= (\d+)\b", r"(\1..=\3).contains(&\2)"),
    (r"\b(\w+)\.iter\(\)\.any\(\|(\w+)\| (\w+) == \*\2\)", r"\1.contains(&\3)"),
    (r"\bif (\w+) < (\w+) \|\| \1 >= ([^{}&|]+) \{", r"if !(\2..\3).contains(&\1) {"),
)

_UNKNOWN = (
    (rf"[^\x00-\x7f{COMMENT}{LITERAL}{END}]", "a letter of clauses"),
    (r"\b(?:ghost|requires|ensures|decreases|prove|syntax|Model)\b", "a word of clauses"),
    (rf"#!?\[(?!{_ATTRIBUTES}\])", "an attribute"),
    (rf"(?<![\w:])std::(?!{_OF_RUST[5:]})", "a path of std"),
    (r"\bDrop\b", "a bound or a derive of Drop"),
    (r"\brt;", "a macro of the runtime"),
    (r"\b(?:unsafe|extern|dyn|static \w+:|async)\b", "an item or a type"),
    (rf"/\*|\br#*(?:\"|{LITERAL})", "a long comment or a raw literal"),
)


def write_in_rust(source: Source, traits: set[str]) -> None:
    """Makes Rust of a file without proofs. `traits` has the names of all traits, whose imports stay for their methods."""
    _add_error_texts(source)
    source.replace(r"^([ \t]*)#\[derive\(([\w, ]*)\)\]\n", _rusts_derives)
    for pattern, by in _REPLACEMENTS:
        source.replace(pattern, by)
    _give_handles(source)
    _import_prelude(source)
    _drop_unused_imports(source, traits)
    _mark_unused_parameters(source)
    _elide_lifetimes(source)
    for pattern, what in ((_macro_of_others(source), "a macro"), *_UNKNOWN):
        if found := re.search(pattern, source.code):
            raise source.unknown(found.start(), what)


def _macro_of_others(source: Source) -> str:
    """The pattern of a macro that is neither known nor the file's own."""
    known = [_MACROS, *re.findall(r"\bmacro_rules! (\w+)", source.code)]
    return rf"(?<![\w:])(?!(?:{'|'.join(known)})!)(?:\w+::)*\w+!\s*[(\[{{]"


def _rusts_derives(found: re.Match[str]) -> str:
    names = [name for name in found[2].split(", ") if name not in ("Drop", "Error")]
    return f"{found[1]}#[derive({', '.join(names)})]\n" if names else ""


def _add_error_texts(source: Source) -> None:
    """Writes what `thiserror` derives: the texts of errors."""
    errors = r"^#\[derive\([^\]]*\bError\)\]\n(?:#\[error\((\S+)\)\]\n)?pub (?:enum|struct) (\w+)"
    for found in re.finditer(errors, source.code, re.MULTILINE):
        if found[1]:
            arms = f"write!(f, {found[1]})"
        else:
            body = source.code[found.end() : source.after_brackets(source.code.index("{", found.end()))]
            variants = re.findall(r"#\[error\((\S+)\)\]\s*(\w+)(?: \{([^}]*)\})?", body)
            arms = "match self {\n" + "".join(_text_arm(source, *variant) for variant in variants) + "}"
        source.code += f"""
impl std::fmt::Display for {found[2]} {{
fn fmt(&self, f: &mut std::fmt::Formatter) -> std::fmt::Result {{
{arms}
}}
}}

impl std::error::Error for {found[2]} {{}}
"""


def _text_arm(source: Source, text: str, variant: str, fields: str) -> str:
    """The arm of a variant, whose text may name its fields."""
    names = re.findall(r"\w+(?=:)", fields)
    bound = ", ".join(name if f"{{{name}}}" in source.shown(text) else f"{name}: _" for name in names)
    return f"Self::{variant}{f' {{ {bound} }}' if names else ''} => write!(f, {text}),\n"


def _give_handles(source: Source) -> None:
    """Makes the handle of each test in the test, where it is used."""
    tests = re.compile(r"^([ \t]*fn (?!main\b)\w+\()rt: HostRuntime(\)[^{]*)\{\n", re.MULTILINE)
    while found := tests.search(source.code):
        body = source.code[found.end() : source.after_brackets(found.end() - 2)]
        handle = "let rt = HostRuntime::new();\n" if re.search(r"\brt\b", body) else ""
        source.code = f"{source.code[:found.start()]}{found[1]}{found[2]}{{\n{handle}{source.code[found.end():]}"


def _import_prelude(source: Source) -> None:
    """Imports what is in Rattle's prelude and not, or of another kind, in Rust's."""
    bare = re.sub(r"#\[derive.*", "", source.code)
    names = [name for name, sign in _PRELUDE.items() if re.search(sign, bare)]
    if not names:
        return
    use = f"use rattle::{{{', '.join(names)}}};\n"
    first = re.search(r"^use ", source.code, re.MULTILINE)
    if first:
        at = first.start()
    else:
        head = re.match(rf"(?:{COMMENT}\d+{END}\n)*\n", source.code)
        at, use = head.end() if head else 0, use + "\n"
    source.code = source.code[:at] + use + source.code[at:]


def _drop_unused_imports(source: Source, traits: set[str]) -> None:
    """Drops the imports of names that only the proof uses."""
    uses = re.compile(r"^use ((?:\w+::)*)(?:\{([^}]*)\}|(\w+));\n", re.MULTILINE)
    rest = uses.sub("", source.code)

    def used(found: re.Match[str]) -> str:
        names = [name.strip() for name in (found[2] or found[3]).split(",") if name.strip()]
        left = [name for name in names if name in traits or re.search(rf"\b{name.split()[-1]}\b", rest)]
        if left == names:
            return found[0]
        return f"use {found[1]}{{{', '.join(left)}}};\n" if left else ""

    source.code = uses.sub(used, source.code)


def _mark_unused_parameters(source: Source) -> None:
    """Puts `_` before the name of each parameter that only the proof uses."""
    functions = re.compile(r"\bfn \w+(?:<[^(]*>)?\(")
    at = 0
    while found := functions.search(source.code, at):
        at = found.end()
        end = source.after_brackets(at - 1)
        body = _body_of(source, end)
        if body is None:
            continue
        text = source.shown(source.code[body : source.after_brackets(body)])

        def marked(name: re.Match[str]) -> str:
            return name[0] if re.search(rf"\b{name[2]}\b", text) else f"{name[1]}_{name[2]}"

        parameters = re.sub(r"(^\s*|[(,]\s*)((?!_)[a-z]\w*)(?=: )", marked, source.code[at : end - 1])
        source.code = source.code[:at] + parameters + source.code[end - 1 :]


def _body_of(source: Source, at: int) -> int | None:
    """Where the body of a function begins whose parameters end at this place, if it has a body."""
    while source.code[at] not in "{;":
        at = source.after_brackets(at) if source.code[at] in "([" else at + 1
    return at if source.code[at] == "{" else None


def _elide_lifetimes(source: Source) -> None:
    """Elides the one lifetime of a function whose signature names it once and whose body doesn't."""
    functions = re.compile(r"\bfn \w+<'(\w+)>\(")
    at = 0
    while found := functions.search(source.code, at):
        at = found.end()
        end = source.after_brackets(at - 1)
        body = _body_of(source, end)
        whole = source.code[at : source.after_brackets(body) if body else end]
        used = len(re.findall(rf"'{found[1]}\b", whole))
        if used == 1 and re.search(rf"'{found[1]}\b", source.code[at:end]):
            signature = source.code[at:end].replace(f"'{found[1]} ", "")
            source.code = source.code[: found.start()] + found[0].split("<")[0] + "(" + signature + source.code[end:]
