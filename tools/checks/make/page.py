"""Writes the page's web files into the sources of desk_page.

The page is the files of crates/desk_page/web. Its program has no file at hand when it runs, so each of them stands in
crates/desk_page/src as a constant. TOKEN in page.html is where the program puts the page's token.
"""

import re

from operators.shared import CRATES, fail

NEEDS = "nothing"

WEB, SOURCES = CRATES / "desk_page/web", CRATES / "desk_page/src"
TOKEN = "TOKEN"
MADE = "`tools/bridge make page` writes this file, from these files of web/:\n//! {}."
LINES = "advice.js lines.js overview.js kept.js levels.js stats.js people.js news.js plots.js rules.js history.js"
VIEW = "known.js view.js rows.js page.js taking.js link.js stream.js counts.js places.js drawing.js hands.js"
STYLE = "page.css"
SCRIPT = re.compile(r'<script type="module" src="/([^"]*)"></script>')
# Each source of files that browsers ask for by name: what it is, and its files.
PARTS = {
    "script_lines": ("What the page makes of the bridge's texts, and the lines that clicks send.", LINES),
    "script_view": ("How the page shows the desk, and what is done at it.", VIEW),
    "style": ("The page's style sheet.", STYLE),
}
MARKUP = """//! The page in HTML, as far as its token and behind it.
//! {made}

/// The page as far as its token.
pub(crate) const HTML_BEFORE: &[u8] = br##"{before}"##;

/// The page behind its token.
pub(crate) const HTML_AFTER: &[u8] = br##"{after}"##;
"""
TABLE = """//! The page's files by their names.
//! {made}

{uses}use desk_http::AssetFile;
use std::alloc::{{AllocError, Global}};

fn push(
    files: &mut Vec<AssetFile>,
    name: &'static str,
    content: &'static [u8],
) -> Result<(), AllocError> {{
    files.push(AssetFile {{ name, content }})?;
    Ok(())
}}
{parts}
/// The parts of the page's script, and its style sheet.
// No constant may have over 10,000 expressions, and one that names others has theirs.
pub(crate) fn web_files(alloc: Global) -> Result<Vec<AssetFile>, AllocError> {{
    let mut files = Vec::new(alloc);
{calls}
    Ok(files)
}}
"""
FUNCTION = """
fn push_{source}(files: &mut Vec<AssetFile>) -> Result<(), AllocError> {{
{rows}
}}
"""


def options(parser):
    pass


def text_of(name):
    text = (WEB / name).read_text()
    if '"##' in text:
        fail(f"web/{name} has the end of a constant in it")
    return text


def constant(name):
    """What the constant of a file is called."""
    return name.replace(".", "_").upper()


def part(title, files):
    """A source with a constant for each file. A script begins on a line of its own, since a line has 120 columns."""
    lines = [f"//! {title}", f"//! {MADE.format(', '.join(files.split()))}"]
    for name in files.split():
        text = ("\n" if name.endswith(".js") else "") + text_of(name)
        lines += ["", f"/// {name}", f'pub(crate) const {constant(name)}: &[u8] = br##"{text}"##;']
    return "\n".join(lines) + "\n"


def markup():
    """The page, whose script is all of the other files in their order."""
    page = text_of("page.html")
    if SCRIPT.findall(page) != [*LINES.split(), *VIEW.split()]:
        fail("web/page.html doesn't name the parts of its script in the order in which they are listed here")
    before, after = page.split(TOKEN)
    return MARKUP.format(made=MADE.format("page.html"), before=before, after=after)


def used(source, files):
    """A `use` of these constants, as `rt fmt` lays it out."""
    names = sorted(map(constant, files.split()))
    if len(names) == 1:
        return f"use crate::{source}::{names[0]};\n"
    lines, line = [], ""
    for name in names:
        if len(line) + len(name) + 2 > 100:
            lines, line = [*lines, line], ""
        line = f"{line} {name}," if line else f"    {name},"
    return f"use crate::{source}::{{\n" + "\n".join([*lines, line]) + "\n};\n"


def table():
    """A table of all files."""
    parts, uses = "", ""
    for source, (_, files) in PARTS.items():
        pushes = [f'push(files, "{name}", {constant(name)})' for name in files.split()]
        rows = "".join(f"    {one}?;\n" for one in pushes[:-1]) + f"    {pushes[-1]}"
        parts += FUNCTION.format(source=source, rows=rows)
        uses += used(source, files)
    calls = "\n".join(f"    push_{source}(&mut files)?;" for source in PARTS)
    made = MADE.format("all of them but page.html")
    return TABLE.format(made=made, uses=uses, parts=parts, calls=calls)


def sources():
    """Each source that is made of web files: its path and its text."""
    parts = [(SOURCES / f"{name}.rt", part(*of)) for name, of in PARTS.items()]
    return [*parts, (SOURCES / "markup.rt", markup()), (SOURCES / "web_files.rt", table())]


def stale():
    """The sources that aren't what their web files make."""
    return [path for path, text in sources() if not path.exists() or path.read_text() != text]


def run(_args):
    for path, text in sources():
        path.write_text(text)
    return 0
