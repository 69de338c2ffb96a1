"""Pages of HTML from what api_source.py read: links, Markdown of comments, and the style."""

import html
import re

STYLE = """:root { color-scheme: light dark; --edge: light-dark(#d0d7de, #3d444d);
  --soft: light-dark(#f6f8fa, #151b23); --link: light-dark(#0550ae, #79b8ff); }
* { box-sizing: border-box; }
body { font: 16px/1.5 system-ui, sans-serif; margin: 0 auto; max-width: 60rem; padding: 1rem;
  background: light-dark(#fff, #0d1117); color: light-dark(#1f2328, #e6edf3); }
a { color: var(--link); text-decoration: none; } a:hover { text-decoration: underline; }
pre, code { font-family: ui-monospace, monospace; font-size: 0.875rem; }
pre { background: var(--soft); border: 1px solid var(--edge); border-radius: 6px; padding: 0.75rem;
  overflow-x: auto; }
:not(pre) > code { background: var(--soft); border-radius: 4px; padding: 0.1em 0.3em; }
table { border-collapse: collapse; display: block; overflow-x: auto; }
td, th { border: 1px solid var(--edge); padding: 0.25rem 0.5rem; text-align: left;
  vertical-align: top; }
h1 { font-size: 1.5rem; } h2 { font-size: 1.2rem; margin-top: 2rem; } h3 { font-size: 1rem; }
h1, h2, h3 { overflow-wrap: anywhere; }
nav { display: flex; gap: 0.75rem; flex-wrap: wrap; align-items: center; margin-bottom: 1rem; }
nav input { flex: 1 1 12rem; font: inherit; padding: 0.25rem 0.5rem; border-radius: 6px;
  border: 1px solid var(--edge); background: var(--soft); color: inherit; min-width: 0; }
#found { list-style: none; padding: 0; } #found:empty { display: none; }
#found li { padding: 0.15rem 0; } small { opacity: 0.75; }
:target { background: light-dark(#fff8c5, #3a3000); }
"""

SEARCH = """const field = document.getElementById('search');
const list = document.getElementById('found');
function row([name, kind, url, about]) {
  const item = document.createElement('li');
  const link = document.createElement('a');
  link.href = ROOT + url;
  link.textContent = name;
  const note = document.createElement('small');
  note.textContent = ' ' + kind + ' · ' + about;
  item.append(link, note);
  return item;
}
field.addEventListener('input', () => {
  const words = field.value.toLowerCase().split(/\\s+/).filter(Boolean);
  const hits = words.length ? ITEMS.filter(([name, , , about]) =>
    words.every(word => (name + ' ' + about).toLowerCase().includes(word))) : [];
  hits.sort((a, b) => a[0].length - b[0].length);
  list.replaceChildren(...hits.slice(0, 30).map(row));
});
document.addEventListener('keydown', event => {
  if (event.key === '/' && document.activeElement !== field) {
    event.preventDefault();
    field.focus();
  }
});
"""


def page(title, root, body):
    """A whole page; `root` leads from it to the first one."""
    return f"""<!DOCTYPE html>
<html lang="en"><head><meta charset="utf-8">
<meta name="viewport" content="width=device-width, initial-scale=1">
<title>{html.escape(title)}</title><link rel="stylesheet" href="{root}style.css"></head><body>
<nav><a href="{root}index.html">protobuf_parse</a>
<input id="search" type="search" placeholder="Search: press /" aria-label="Search"></nav>
<ul id="found"></ul>
{body}
<script>const ROOT = '{root}';</script>
<script src="{root}items.js"></script><script src="{root}search.js"></script>
</body></html>
"""


def inline(text):
    """A line of Markdown: code, emphasis, and links to the web; other links are their words."""
    parts = re.split(r"(`[^`]+`)", text)
    for at, part in enumerate(parts):
        if part.startswith("`") and len(part) > 1:
            parts[at] = f"<code>{html.escape(part[1:-1])}</code>"
            continue
        part = html.escape(part, quote=False)
        part = re.sub(r"\*\*(.+?)\*\*", r"<b>\1</b>", part)
        part = re.sub(r"\[([^\]]+)\]\((https?:[^)]+)\)", r'<a href="\2">\1</a>', part)
        parts[at] = re.sub(r"\[([^\]]*)\]\([^)]*\)", r"\1", part)
    text = "".join(parts)
    return re.sub(r"\[(<code>[^<]*</code>)\](\([^)]*\))?", r"\1", text)


def table(lines):
    """The rows of a table, of which a row may go on over several lines."""
    rows = []
    for line in lines:
        if line.startswith("|"):
            rows.append(line)
        else:
            rows[-1] += " " + line
    cells = [[inline(cell.strip()) for cell in row.strip().strip("|").split("|")] for row in rows]
    head = "".join(f"<th>{cell}</th>" for cell in cells[0])
    body = "".join("<tr>" + "".join(f"<td>{c}</td>" for c in row) + "</tr>" for row in cells[2:])
    return f"<table><tr>{head}</tr>{body}</table>"


def blocks(lines):
    """The paragraphs, lists, tables and pieces of code of a comment, each as its lines."""
    block, code = [], False
    for line in lines:
        if line.startswith("```"):
            if block and not code:
                yield block
                block = []
            block.append(line)
            if code:
                yield block
                block = []
            code = not code
        elif code or line.strip():
            block.append(line)
        elif block:
            yield block
            block = []
    if block:
        yield block


def markdown(lines):
    """A comment as HTML."""
    found = []
    for block in blocks(lines):
        if block[0].startswith("```"):
            found.append(f"<pre>{html.escape(chr(10).join(block[1:-1]))}</pre>")
        elif block[0].startswith("|"):
            found.append(table(block))
        elif block[0].startswith("#"):
            found.append(f"<h3>{inline(block[0].lstrip('# '))}</h3>")
        elif block[0].startswith(("- ", "* ")):
            items = re.split(r"(?m)^[-*] ", "\n".join(block))[1:]
            found.append("<ul>" + "".join(f"<li>{inline(item)}</li>" for item in items) + "</ul>")
        elif block[0].startswith("    "):
            found.append(f"<pre>{html.escape(chr(10).join(block))}</pre>")
        else:
            found.append(f"<p>{inline(' '.join(block))}</p>")
    return "\n".join(found)


def linked(text, links, address):
    """A clause or a definition, with links from the names that it uses: `address` says where to."""
    found, last = [], 0
    for match in re.finditer(r"[^\W\d][\w'◌-]*(?:\.[^\W\d][\w'-]*)?", text):
        url = address(match.group(0), links)
        if url:
            found.append(html.escape(text[last : match.start()], quote=False))
            found.append(f'<a href="{url}">{html.escape(match.group(0), quote=False)}</a>')
            last = match.end()
    return "".join(found) + html.escape(text[last:], quote=False)


def signed(lines, types):
    """A signature, with links from the types that have a page: `types` says where to."""

    def link(match):
        url = types.get(match.group(0))
        return f'<a href="{url}">{match.group(0)}</a>' if url else match.group(0)

    found = []
    for line in lines:
        text = html.escape(line, quote=False)
        is_code = not line.strip().startswith(("///", "ghost"))
        found.append(re.sub(r"\b[A-Z]\w+\b", link, text) if is_code else text)
    return "\n".join(found)


def first_sentence(lines):
    """What a list says of an item."""
    text = " ".join(next(iter(blocks(lines)), []))
    return re.split(r"(?<=\.) ", text)[0]
