#!/usr/bin/env python3
"""Makes single edits of the original formatter, and tries on them whether the stored list tells each from the original.

An edit of a function's text becomes a copy of that function beside the original; a number that is set while the program runs picks the
copy that is called. So all edits are one program, which is built in a folder outside of the repository with mutants/ as its driver. Five
families need no copies: a test of a kind that answers otherwise for one kind, a row of the dispatch that leads to another routine, a
word that is or is not on the keyword list, a character that is or is not white space, and a kind that is or is not carried. Edits that do
not compile are counted and left out. The oracle's own check of a call (answers.rs, text.rs and tape.rs) is edited in the same way, for the
refusals.

Writes vectors/score.txt: how many edits of each family the list shows, and how many vectors/equivalent.txt names as ones that change
nothing; fails if any other is left. With --choose the calls are chosen anew first, so that every edit that any of many calls shows is
shown: that writes vectors/cases.txt, vectors/vectors.bin and its copy crates/replay/stdin.

Needs cargo and the source (rust/README.md); takes minutes, and is no part of the gate.
"""

import argparse
import itertools
import json
import os
import pathlib
import re
import shutil
import subprocess
import sys
import tempfile

ROOT = pathlib.Path(__file__).resolve().parent.parent
VECTORS = ROOT / "vectors"
DRIVER = ROOT / "scripts" / "mutants"

# Functions that serve only what is not carried (thirteen node kinds, the defaults of the settings), or only write tapes.
LEFT_OUT = {
    "format_engine_clause",
    "format_insert_statement",
    "format_values_clause",
    "format_create_statement",
    "format_column_def_list",
    "format_alter_statement",
    "format_set_statement",
    "format_explain_statement",
    "write_padding",
    "child",
    "output",
    "default",
    "push_open",
    "push_token",
    "push_close",
    "push_span",
    "command_places",
}

FORMATTER = ["format_node.rs", "context.rs", "mod.rs"]
CHECKS = ["tape.rs", "text.rs", "answers.rs"]

CARGO = """[package]
name = "mutants"
version = "0.1.0"
edition = "2021"
[workspace]
[dependencies]
oracle = {{ path = {oracle} }}
[profile.release]
opt-level = 1
overflow-checks = true
"""


def fail(message):
    sys.exit(f"mutants: {message}")


def source_folder():
    """The folder of the formatter's files: under the variable's folder, else under the one beside the repository."""
    folder = os.environ.get("CLICKHOUSE_ANALYZER_SRC")
    base = pathlib.Path(folder) if folder else ROOT.parent / "shared" / "docs" / "src"
    return base / "src"


# ── functions of a file


def without_comments(text):
    """The text with its lines where they were."""
    return re.sub(r" *//[^\n]*", "", text)


def read_formatter(file):
    return without_comments((source_folder() / "formatter" / file).read_text(encoding="utf-8"))


def read_check(file):
    """A file of the oracle's check that has the oracle's own types."""
    text = without_comments((ROOT / "rust" / "oracle" / "src" / file).read_text(encoding="utf-8"))
    types = re.findall(r"pub (?:struct|enum) (\w+)", text)
    text = re.sub(r"#\[derive[^\n]*\npub (?:struct|enum)[^}]*\}", lambda match: re.sub(r"[^\n]", "", match[0]), text)
    uses = f"pub use oracle::{file[:-3]}::{{{', '.join(types)}}};"
    return uses + re.sub(r"\buse crate::(tape|text)\b", r"use super::\1", text)


class Function:
    """A function's name, its place in the file, its signature and its body with both braces."""

    def __init__(self, file, text, match):
        self.file, self.name, self.checks = file, match["name"], file in CHECKS
        self.start, self.open = match.start("line"), match.end()
        self.indent = match["indent"]
        self.end = text.index(f"\n{self.indent}}}\n", self.open) + len(self.indent) + 3
        self.signature = text[self.start : self.open].strip()
        self.body = text[self.open : self.end].rstrip("\n")
        self.first_line = text.count("\n", 0, self.open) + 1

    def place_of(self, offset):
        """File, line, column and function of an offset in the body, as print."""
        before = self.body[:offset]
        column = offset - before.rfind("\n")
        return f"{self.file}:{self.first_line + before.count(chr(10))}:{column} {self.name}"

    def renamed(self, name):
        return re.sub(rf"\bfn {self.name}\b", f"fn {name}", self.signature)

    def call(self, name):
        """The call of a copy with the function's own arguments."""
        inner = self.signature[self.signature.index("(") + 1 : self.signature.index(")")]
        names = [part.split(":")[0].strip() for part in inner.split(",") if part.strip()]
        method = names and names[0].split()[-1].lstrip("&") == "self"
        if method:
            return f"self.{name}({', '.join(names[1:])})"
        return f"{'Self::' if self.indent else ''}{name}({', '.join(names)})"


SIGNATURE = re.compile(r"(?P<line>^(?P<indent> {0,4})(?:pub )?fn (?P<name>\w+)(?:<[^>]*>)?\([^)]*\)[^{;]*?)(?=\{)", re.M)


def functions(texts):
    """The functions of all files, numbered."""
    found = [Function(file, text, match) for file, text in texts.items() for match in SIGNATURE.finditer(text)]
    kept = [function for function in found if function.name not in LEFT_OUT]
    for number, function in enumerate(kept):
        function.number = number
    return kept


# ── edits of a function's text: (start, end, new text)


def exchanged(body, pattern, *news):
    """Each place of the pattern with each new text; `\\1` and such stand for the pattern's groups."""
    for match in re.finditer(pattern, body):
        for new in news:
            yield match.start(), match.end(), match.expand(new)


COMPARISONS = {"==": ["!="], "!=": ["=="], ">": [">=", "<", "=="], ">=": [">", "<", "=="], "<=": ["<", ">", "=="]}


def comparisons(body):
    for old, news in COMPARISONS.items():
        yield from exchanged(body, f"(?<= ){re.escape(old)}(?= )", *news)


CONDITION = re.compile(r"\bif (?!let\b)((?:[^{}=]|==|=(?!>))*?)(\s*\{|\s*=>)")


def conditions(body):
    """Each condition of an `if` or of an arm negated, always true, always false, or with one of its parts left out."""
    for match in CONDITION.finditer(body):
        start, end, whole = match.start(1), match.end(1), match[1]
        negated = [] if re.fullmatch(r"\S+ [!=]= \S+", whole) else [f"!({whole})"]
        yield from ((start, end, new) for new in negated + ["true", "false"])
        for sign in ("&&", "||"):
            parts = re.split(rf"\s+{re.escape(sign)}\s+", whole)
            if len(parts) > 1:
                yield from ((start, end, f" {sign} ".join(parts[:i] + parts[i + 1 :])) for i in range(len(parts)))


def booleans(body):
    yield from exchanged(body, r"(?<= )&&(?= )", "||")
    yield from exchanged(body, r"(?<= )\|\|(?= )", "&&")
    yield from exchanged(body, r"(?<![\w!])!(?=[a-z(])", "")
    yield from exchanged(body, r"\btrue\b", "false")
    yield from exchanged(body, r"\bfalse\b", "true")


def statements(body):
    """Each statement of one line deleted, each call alone in an arm, each branch after `else`, and some calls made twice."""
    yield from exchanged(body, r"(?m)^ +(?=\S)(?!let\b|\}|//)[^\n]*;$", "")
    yield from exchanged(body, r"(?m)(?<==> )(?:\w+)\([^\n]*\)(?=,$)", "{}")
    yield from exchanged(body, r"(?m)^ +ctx\.(?:write_newline|indent|dedent)\(\);$", r"\g<0> \g<0>")
    for match in re.finditer(r"(?m)^( +)\} else (?=\{$|if\b)", body):
        end = body.index(f"\n{match[1]}}}\n", match.end()) + len(match[1]) + 2
        yield match.end(1) + 1, end, ""
    for match in re.finditer(r"(?m)^( +)if [^\n]*\{$", body):
        end = body.index(f"\n{match[1]}}}\n", match.end()) + len(match[1]) + 2
        yield match.start(), end, ""


LINE = r"(?=\S)(?!let\b|return\b|\}|//)[^\n]*;\n"
BLOCK = r"if [^\n]*\{\n(?:(?!\1\})[^\n]*\n)*\1\}\n"


def swapped(body, first, second):
    """Each place of one pattern exchanged with the other that follows at once, at the same indent."""
    for match in re.finditer(rf"(?m)^( +)({first})(?=\1({second}))", body):
        yield match.start(), match.end() + len(match[1]) + len(match[3]), f"{match[1]}{match[3]}{match[1]}{match[2]}"


def swaps(body):
    """Statements of one line, and whole `if`s, exchanged with the next."""
    yield from swapped(body, LINE, LINE)
    yield from swapped(body, BLOCK, BLOCK)


def orders(body):
    """A statement of one line exchanged with an `if` beside it: refusals in another order."""
    yield from swapped(body, LINE, BLOCK)
    yield from swapped(body, BLOCK, LINE)


def insertions(body):
    """A call put before and after each call."""
    for call in ("write_space", "write_newline", "indent", "dedent"):
        for match in re.finditer(r"(?m)^( +)(?:ctx\.|emit_|format_node\()[^\n]*;\n", body):
            yield from ((place, place, f"{match[1]}ctx.{call}();\n") for place in match.span())
        yield from exchanged(body, r"(?m)(?<==> )(\w+\([^\n]*\)),$", rf"{{ ctx.{call}(); \1 }}", rf"{{ \1; ctx.{call}() }}")


# An arm's indent, its pattern with a guard that may take lines of its own, and its body.
PATTERN = r"(?:SyntaxChild::|\"[A-Z]+\"|_)[^\n]*(?:\n\1 +(?:if|\|\|) [^\n]*)*?=>(?: |\n\1)"
ARM = re.compile(rf"(?m)^( +)({PATTERN})(\{{\n(?:[^\n]*\n)*?\1\}}|[^\n]*,)$")


def arms(body):
    """Each arm deleted, and its body exchanged for that of the next arm or of the one before; arms within arms too."""
    lines = (match.start() for match in re.finditer(r"(?m)^ ", body))
    found = [match for match in (ARM.match(body, line) for line in lines) if match]
    found.sort(key=lambda match: len(match[1]))
    for one, other in zip(found, found[1:]):
        if one[1] == other[1]:
            yield one.start(3), one.end(3), other[3]
            yield other.start(3), other.end(3), one[3]
    yield from ((match.start(), match.end(), "") for match in found)


def kinds(body, names):
    """Each kind exchanged for its neighbours in the list of kinds and for the next one in the function; one of several left out."""
    found = list(re.finditer(r"SyntaxKind::(\w+)", body))
    for place, match in enumerate(found):
        at = names.index(match[1])
        others = [other[1] for other in found[place:] + found if other[1] != match[1]]
        news = {names[at - 1], names[(at + 1) % len(names)], *others[:1]}
        yield from ((match.start(1), match.end(1), new) for new in sorted(news))
    yield from exchanged(body, r"\bSyntaxKind::\w+\s*\| ", "")
    yield from exchanged(body, r"\s*\| SyntaxKind::\w+", "")


def constants(body):
    for match in re.finditer(r"(?<![\w.'\"])\d+(?![\w'\"])", body):
        value = int(match[0])
        yield from ((match.start(), match.end(), str(new)) for new in (value - 1, value + 1) if new >= 0)
    for match in re.finditer(r"\b0x[0-9A-F]{2}\b", body):
        value = int(match[0], 16)
        yield from ((match.start(), match.end(), f"0x{new:02X}") for new in (value - 1, value + 1) if 0 <= new <= 255)
    yield from exchanged(body, r"'\\n'", "' '", r"'\\r'", "'a'")
    yield from exchanged(body, r"' '", r"'\\n'", r"'\\t'")


def strings(body):
    """Each string empty, twice, without its first sign, or another of the function's; messages aside."""
    found = list(re.finditer(r'(?<!expect\()"([^"\n]*)"', body))
    signs = sorted({match[1] for match in found} | {";", ")"})
    for match in found:
        old, at = match[1], signs.index(match[1])
        news = {"", old + old, old[1:], signs[at - 1], signs[(at + 1) % len(signs)]}
        yield from ((match.start(1), match.end(1), new) for new in sorted(news - {old}))


TEXT = r"t(?:oken)?\.text\(ctx\.source\)"

# What a call, a field or a number of the check may be mistaken for.
CALLS = [
    (r"\bwrite_newline\b", ["write_space"]),
    (r"\bwrite_space\b", ["write_newline"]),
    (r"\bindent\(\)", ["dedent()"]),
    (r"\bdedent\(\)", ["indent()"]),
    (r"\bctx\.write_token\((" + TEXT + r")\)", [r"ctx.write_keyword(\1)", r"ctx.write_raw(\1)"]),
    (r"\bctx\.write_keyword\((" + TEXT + r")\)", [r"ctx.write_token(\1)", r"ctx.write_raw(\1)"]),
    (r"\bctx\.write_(?:token|keyword)\(t\.text\(ctx\.source\)\)", ["emit_token(t, ctx)", "emit_comment(t, ctx)"]),
    (r"\bctx\.write_token\((\"[^\"]*\")\)", [r"ctx.write_raw(\1)", "emit_token(t, ctx)", "ctx.write_token(t.text(ctx.source))"]),
    (r"\bself\.write_token\((&text[^;]*)\);", [r"self.write_raw(\1);", "self.write_token(text);"]),
    (r"\bemit_token\(t, ctx\)", ["ctx.write_token(t.text(ctx.source))", "ctx.write_keyword(t.text(ctx.source))", "emit_comment(t, ctx)"]),
    (r"\bemit_comment\(t, ctx\)", ["emit_token(t, ctx)", "ctx.write_raw(t.text(ctx.source))"]),
    (r"\bemit_comment\(t, ctx\)", ["ctx.note_skipped_whitespace(t.text(ctx.source))"]),
    (r"\bctx\.note_skipped_whitespace\([^\n;]*\)", ["emit_token(t, ctx)", "ctx.write_token(t.text(ctx.source))", "ctx.write_space()"]),
    (r"\bformat_node(?=\(subtree, ctx\))", ["format_error_verbatim", "format_passthrough", "format_inline"]),
    (r"\btake_pending_newline\b", ["take_pending_blank_line"]),
    (r"\btake_pending_blank_line\b", ["take_pending_newline"]),
    (r"\bno_space_before\(t\)", ["no_space_after(t.kind)", "true", "false"]),
    (r"!no_space_after\(t\.kind\)", ["!no_space_before(t)", "true", "false"]),
    (r"\bno_space_after\(pk\)", ["true", "false"]),
    (r"\bis_keyword\b", ["is_value_keyword"]),
    (r"\bis_value_keyword\b", ["is_keyword"]),
    (r"\bto_uppercase\(\)", ["to_lowercase()", "to_string()"]),
    (r"\bto_lowercase\(\)", ["to_uppercase()", "to_string()"]),
    (r"\bpending_newline\b", ["pending_blank_line"]),
    (r"\bpending_blank_line\b", ["pending_newline"]),
    (r"\bneeds_space\b", ["at_line_start"]),
    (r"\bself\.at_line_start\b", ["self.needs_space"]),
    (r"\.any\(", [".all("]),
    (r"\.all\(", [".any("]),
    (r"\bfirst\.\.=last\b", ["first..last"]),
    (r"\btrim_end\(\)", ["trim()", "trim_start()", "as_str()", r"trim_end_matches('\\n')", "trim_end_matches(' ')"]),
    (r"\btrim_end\(\)", [r"trim_end_matches([' ', '\\n'])", "trim_end_matches(|c: char| c.is_ascii_whitespace())"]),
    (r"\bstarts_with\(", ["ends_with(", "contains("]),
    (r"\bends_with\(", ["starts_with(", "contains("]),
    (r"\bsaturating_sub\(", ["saturating_add(", "min("]),
    (r"(?<= )\+=(?= )", ["-=", "="]),
    (r"(?<= )\*(?= )", ["+"]),
    (r"\b(tree|token|node)\.(start|end)\b", [r"\1.start", r"\1.end"]),
    (r"&(tree\.children) \{", [r"\1.iter().skip(1) {", r"\1.iter().rev() {", r"\1.iter().take(1) {"]),
    (r"\bSome\((?:SyntaxKind::BareWord|t\.kind)\);", ["None;"]),
    (r"\bt\.kind == SyntaxKind::OpeningRoundBracket\s+&& ", [""]),
    (r"\bmatches!\(\s*prev_kind,[^;]*(?=;)", ["true", "false"]),
    (r"\bSyntaxChild::Tree\(_\)", ["SyntaxChild::Token(_)", "_"]),
    (r"\.\.(?=tree\.end)", ["..="]),
    (r"\bpush_str\(text\)", ["push_str(text.trim())", "push_str(text.trim_end())", "push_str(&text.to_uppercase())"]),
    (r"\bMOST_[A-Z]+\b", [r"(\g<0> + 1)", r"(\g<0> - 1)"]),
    (r"\bSPAN_COMMAND\b", ["10", "12"]),
    (r">= kinds::COUNT", [">= kinds::COUNT - 1", ">= kinds::COUNT + 1"]),
    (r"(?<!\w)(?:OPEN|TOKEN|CLOSE)\b", ["OPEN", "TOKEN", "CLOSE"]),
]


def calls(body):
    for pattern, news in CALLS:
        yield from exchanged(body, pattern, *news)


# ── copies


def balanced(text):
    """Whether the brackets outside of strings and signs come in pairs."""
    bare = re.sub(r'"[^"\n]*"|\'[^\'\n]*\'', "", text)
    return all(bare.count(first) == bare.count(last) for first, last in ("()", "[]", "{}"))


def edits(function, names):
    """The edits of a function, each text once; those of the dispatch leave its rows alone, which are a family of their own."""
    body = function.body
    last = body.index("match tree.kind") if function.name == "format_node" else len(body)
    seen = {body}
    families = [comparisons, conditions, booleans, statements, swaps, arms, constants, strings, calls]
    families.append(orders if function.checks else insertions)
    made = itertools.chain(kinds(body, names), *(family(body) for family in families))
    for start, end, new in made:
        text = body[:start] + new + body[end:]
        if text not in seen and end <= last and balanced(text):
            seen.add(text)
            yield start, end, new, text


class Copy:
    """An edited copy of a function: its number, what it changes, and its text."""

    def __init__(self, number, function, edit):
        start, end, new, body = edit
        old = function.body[start:end]
        self.number, self.function, self.body = number, function, body
        words = [" ".join(part.split()) or "nothing" for part in (old, new)]
        self.name = f"{function.place_of(start)}: {words[0]} -> {words[1]}"

    def text(self):
        return f"{self.function.renamed(f'{self.function.name}__{self.number}')} {self.body}\n"


def all_copies(all_functions, names):
    made = []
    for function in all_functions:
        for edit in edits(function, names):
            made.append(Copy(len(made) + 1, function, edit))
    return made


# ── the edited files


class Sites:
    """The tests of a kind in their order: what is asked, of what sort of thing, and which kinds an earlier test has taken."""

    def __init__(self):
        self.rows = []
        self.taken = {}

    def put(self, function, place, sort, kind, test):
        what = "the kinds of the list" if test.startswith("matches!") else test
        asked = self.taken.setdefault((function, sort, kind), [])
        self.rows.append((f"{function.place_of(place)}: {what}", sort, list(asked)))
        if not test.startswith("matches!"):
            asked += re.findall(r"SyntaxKind::(\w+)", test)
        return f"crate::flipped({len(self.rows) - 1}, {kind}, {test})"


TEST = re.compile(
    r"(Tree\(t\) if )?\b((?:t|token|subtree|tree)\.kind) [!=]= SyntaxKind::\w+|matches!\(\s*((?:token\.)?kind),[^)]*\)"
)


def with_sites(function, sites):
    """The body with each test of a kind handed to the driver, which may answer otherwise."""

    def handed(match):
        before, kind = match[1] or "", match[2] or match[3]
        node = before or kind.startswith("subtree")
        sort = "Sort::Node" if node else "Sort::Root" if kind == "tree.kind" else "Sort::Token"
        return before + sites.put(function, match.start(), sort, kind, match[0][len(before) :])

    return TEST.sub(handed, function.body)


# Questions that the original asks the driver: the function, what it has, and what stands there instead.
QUESTIONS = [
    (
        "format_node",
        "match tree.kind",
        "if let Some(routine) = crate::moved(tree.kind) { return ROUTINES[routine].1(tree, ctx); } match tree.kind",
    ),
    ("is_keyword", "KEYWORDS.contains(&upper.as_str())", "crate::listed(KEYWORDS.contains(&upper.as_str()), &upper)"),
    (
        "is_value_keyword",
        'matches!(upper.as_str(), "TRUE" | "FALSE" | "NULL")',
        'crate::value_listed(matches!(upper.as_str(), "TRUE" | "FALSE" | "NULL"), &upper)',
    ),
    ("finish", "self.buf.trim_end()", "self.buf.trim_end_matches(|c: char| crate::white(c.is_whitespace(), c))"),
    ("node", "kinds::is_carried(node.kind)", "crate::carried(kinds::is_carried(node.kind), node.kind)"),
    # By the table of well-formed sequences, so that its edits show; a test of the oracle holds the table to the library.
    (
        "well_formed",
        "std::str::from_utf8(bytes).map_err(|error| error.valid_up_to())",
        "match first_ill_formed(bytes) { Some(place) => Err(place), None => Ok(std::str::from_utf8(bytes).unwrap()) }",
    ),
]


def original(function, sites):
    """The original under another name, with its questions to the driver."""
    body = with_sites(function, sites)
    for name, old, new in QUESTIONS:
        if name == function.name:
            if old not in body:
                fail(f"{name} has no {old}")
            body = body.replace(old, new)
    return f"{function.renamed(function.name + '__0')} {body}\n"


def entry(function, copies):
    """The function under its own name, which calls the copy that is asked for."""
    rows = [f"{copy.number} => {function.call(f'{function.name}__{copy.number}')}," for copy in copies]
    rows.append(f"_ => {function.call(function.name + '__0')},")
    return f"{function.signature} {{ crate::touch({function.number}); match crate::copy() {{ {' '.join(rows)} }} }}\n"


class Edited:
    """The text of an edited file in parts, and the lines of each copy in it."""

    def __init__(self, text, its_functions, copies, sites):
        self.lines, self.parts, self.line = {}, [], 1
        self.add("#![allow(warnings)]\n")
        place = 0
        for function in its_functions:
            own = [copy for copy in copies if copy.function is function]
            self.add(text[place : function.start] + entry(function, own) + original(function, sites))
            for copy in own:
                self.lines[copy.number] = (self.line, self.line + copy.text().count("\n") - 1)
                self.add(copy.text())
            place = function.end
        self.add(text[place:])

    def add(self, part):
        self.parts.append(part)
        self.line += part.count("\n")

    def copy_at(self, line):
        return next((number for number, (first, last) in self.lines.items() if first <= line <= last), None)


def routines(text):
    """The routines that carried kinds go to, as the driver's table."""
    part = text[text.index("match tree.kind {") : text.index("fn format_file(")]
    names = sorted(set(re.findall(r"\bformat_\w+", part)) - LEFT_OUT)
    rows = ", ".join(f'("{name}", {name})' for name in names)
    kind = "(&str, fn(&SyntaxTree, &mut FormatterContext))"
    return f"pub const ROUTINES: [{kind}; {len(names)}] = [{rows}];\n"


def rust_list(rows):
    return "&[\n" + "".join(f"    {row},\n" for row in rows) + "]"


def quoted(text):
    return json.dumps(text, ensure_ascii=False)


def table(sites, copies):
    """The driver's tables of kind tests and of copies."""
    tests = (f"({quoted(name)}, {sort}, &{json.dumps(taken)})" for name, sort, taken in sites.rows)
    rows = (f"({copy.number}, {copy.function.number}, {json.dumps(copy.function.checks)}, {quoted(copy.name)})" for copy in copies)
    return (
        f"pub const SITES: &[(&str, Sort, &[&str])] = {rust_list(tests)};\n"
        f"pub const COPIES: &[(usize, usize, bool, &str)] = {rust_list(rows)};\n"
    )


def write_crate(folder, texts, all_functions, copies):
    """Writes the crate's files; hands back the edited ones by name."""
    sites = Sites()
    edited = {}
    for file, text in texts.items():
        own = [function for function in all_functions if function.file == file]
        edited[file] = Edited(text, own, copies, sites)
        out = "".join(edited[file].parts) + (routines(text) if file == "format_node.rs" else "")
        place = folder / "src" / ("checks" if file in CHECKS else "formatter") / file
        place.parent.mkdir(parents=True, exist_ok=True)
        place.write_text(out.replace("mod format_node;", "pub mod format_node;"), encoding="utf-8")
    (folder / "src" / "table.rs").write_text(table(sites, copies), encoding="utf-8")
    for file in DRIVER.glob("*.rs"):
        shutil.copy(file, folder / "src")
    (folder / "Cargo.toml").write_text(CARGO.format(oracle=quoted(str(ROOT / "rust" / "oracle"))), encoding="utf-8")
    return edited


# ── building and running


def copy_of(span, edited):
    """The copy that the compiler's message is about, if any."""
    file = edited.get(pathlib.Path(span["file_name"]).name)
    return file and file.copy_at(span["line_start"])


def faulty_copies(folder, edited):
    """The numbers of the copies that do not compile; none if all do."""
    words = ["cargo", "build", "--release", "--offline", "--quiet", "--message-format=json"]
    done = subprocess.run(words, cwd=folder, stdout=subprocess.PIPE, stderr=subprocess.PIPE, text=True)
    found = set()
    for line in done.stdout.splitlines():
        message = json.loads(line).get("message")
        if message and message["level"] == "error":
            spans = [span for span in message["spans"] if span["is_primary"]]
            numbers = {copy_of(span, edited) for span in spans}
            if None in numbers:
                fail(message["rendered"])
            found |= numbers
    if done.returncode != 0 and not found:
        fail(f"the program cannot be built\n{done.stderr}")
    return found


def build(folder, texts, all_functions, copies):
    """Builds the program without the copies that do not compile; hands back those that do."""
    while True:
        edited = write_crate(folder, texts, all_functions, copies)
        faulty = faulty_copies(folder, edited)
        if not faulty:
            return copies
        copies = [copy for copy in copies if copy.number not in faulty]


def kind_names():
    text = (source_folder() / "parser" / "syntax_kind.rs").read_text(encoding="utf-8")
    inner = text[text.index("pub enum SyntaxKind {") : text.index("\n}", text.index("pub enum SyntaxKind {"))]
    return re.findall(r"(?m)^\s+(\w+),", inner)


def run(folder, *words):
    target = os.environ.get("CARGO_TARGET_DIR") or folder / "target"
    done = subprocess.run([pathlib.Path(target) / "release" / "mutants", *words], stdout=subprocess.PIPE, text=True)
    if done.returncode != 0:
        fail("the run failed")
    return done.stdout.splitlines()


def equivalents():
    """The names of the edits that change nothing; each stands on a line of its own, set in by two blanks."""
    lines = (VECTORS / "equivalent.txt").read_text(encoding="utf-8").splitlines()
    return {line[2:] for line in lines if line.startswith("  ")}


def score(rows, not_compiling):
    """The text of vectors/score.txt, and what is wrong, if anything; a row is `1` or `0` for shown, a family and a name."""
    known = equivalents()
    table, wrong, met = {}, [], set()
    for shown, family, name in (row.split("\t") for row in rows):
        sort = 1 if shown == "1" else 2 if name in known else 3
        counts = table.setdefault(family, [0, 0, 0, 0])
        counts[0] += 1
        counts[sort] += 1
        met.add(name)
        wrong += [f"left: {name}"] * (sort == 3) + [f"named as equivalent, but shown: {name}"] * (sort == 1 and name in known)
    wrong += [f"named as equivalent, but no edit: {name}" for name in sorted(known - met)]
    table["all"] = [sum(counts) for counts in zip(*table.values())]
    lines = ["family: edits, shown, equivalent, left"]
    lines += [f"{family}: {', '.join(map(str, counts))}" for family, counts in table.items()]
    lines += [f"edits that do not compile, which are not among these: {not_compiling}"]
    return "\n".join(lines) + "\n", wrong


def work(folder, choose):
    texts = {file: read_formatter(file) for file in FORMATTER} | {file: read_check(file) for file in CHECKS}
    all_functions = functions(texts)
    copies = all_copies(all_functions, kind_names())
    built = build(folder, texts, all_functions, copies)
    if choose:
        run(folder, "choose", VECTORS)
        shutil.copy(VECTORS / "vectors.bin", VECTORS.parent / "crates/replay/stdin")
    text, wrong = score(run(folder, "score", VECTORS / "vectors.bin"), len(copies) - len(built))
    (VECTORS / "score.txt").write_text(text, encoding="utf-8")
    print(text, end="")
    if wrong:
        fail("\n".join(wrong))


def main():
    parser = argparse.ArgumentParser(description=__doc__.splitlines()[0])
    parser.add_argument("--choose", action="store_true", help="choose the list's calls anew")
    parser.add_argument("--work", type=pathlib.Path, help="the folder to build in, outside of the repository; else a temporary one")
    arguments = parser.parse_args()
    if not (source_folder() / "formatter").is_dir():
        fail("the source is not at hand: set CLICKHOUSE_ANALYZER_SRC to the folder that holds src/")
    if arguments.work:
        work(arguments.work, arguments.choose)
        return
    with tempfile.TemporaryDirectory() as folder:
        work(pathlib.Path(folder), arguments.choose)


if __name__ == "__main__":
    main()
