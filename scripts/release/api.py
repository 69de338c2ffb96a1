#!/usr/bin/env python3
"""Writes pages of the API.

    scripts/release/api.py FOLDER

From the sources of the libraries that crates.txt names it makes a page for each crate and each
item that callers can name: its signature, comment, fields and methods, and its clauses, in which
each name leads to its definition in specs/, on a page too. FOLDER/index.html is the first one. They
have a search field, are light or dark as the reader's system is, and need neither a server nor the
net. Its status is 1 where a public item has no comment; these are printed."""

import argparse
import html
import json
import re
import sys
from pathlib import Path

import api_pages as pages
import api_source as source


class Site:
    """The pages, and where each name leads."""

    def __init__(self, folder):
        self.folder = Path(folder)
        self.crates = source.crates()
        self.specs = [file for file in source.definition_files() if file[0] in self.crates]
        defining = {crate for crate, _, _ in self.specs}
        api = {name: source.api_of(self.crates, module) for name, module in self.crates.items()}
        self.api = {name: found for name, found in api.items() if found or name in defining}
        self.homes = {}
        self.types = {}
        self.defined = {}
        self.rows = []
        self.bare = []
        self.find_homes()
        self.find_definitions()

    def find_homes(self):
        """Gives each item its page, in the crate that it stands in, and finds types by their names,
        where one alone has the name."""
        for crate, found in self.api.items():
            for path, item in found.items():
                if item.crate == crate and id(item) not in self.homes:
                    self.homes[id(item)] = f"{crate}/{path.replace('::', '.')}.html"
                    if item.kind in ("struct", "enum", "trait", "type"):
                        several = item.name in self.types
                        self.types[item.name] = None if several else "../" + self.homes[id(item)]

    def find_definitions(self):
        """Finds what the files of specs/ define."""
        for crate, path, lines in self.specs:
            for name in source.defined_in(lines).values():
                self.defined[crate, path, name] = f"{crate}/specs/{path}.html"

    def write(self, url, title, body):
        """One page. Its address is below the folder."""
        file = self.folder / url
        file.parent.mkdir(parents=True, exist_ok=True)
        file.write_text(pages.page(title, "../" * url.count("/"), body))

    def address(self, depth):
        """Where a name leads, from a page so deep in the folder."""

        def find(name, links):
            front, _, rest = name.partition(".")
            crate, path, there = links.get(front, (None, None, None))
            page = self.defined.get((crate, path, there or rest))
            return page and "../" * depth + page + "#" + (there or rest)

        return find

    def clauses(self, item, depth):
        """The clauses of an item, or of a method."""
        if not item.clauses:
            return ""
        text = "\n".join(item.clauses).removesuffix(";")
        return f"<pre>{pages.linked(text, item.links, self.address(depth))}</pre>"

    def parts(self, item):
        """The fields or variants of an item."""
        lines, shown = [], True
        for docs, line in item.body:
            if re.match(r"\S", line) and line[0] not in ")}":
                shown = item.kind != "struct" or line.startswith("pub ")
            if shown and line.strip():
                lines += [f"    /// {doc}" for doc in docs] + ["    " + line]
        if item.kind == "struct" and len(lines) < len(item.body):
            lines.append("    // what else it has is its own")
        return self.signature(item.head + lines + ["}"]) if lines else ""

    def signature(self, lines):
        """The lines of a signature."""
        return f"<pre>{pages.signed(lines, self.types)}</pre>"

    def method(self, item, owner):
        """A method, below its owner."""
        self.commented(item, f"{owner.name}::{item.name}")
        return (
            f'<h3 id="{item.name}">{item.name}</h3>{self.signature(item.head)}'
            f"{pages.markdown(item.docs)}{self.clauses(item, 1)}"
        )

    def commented(self, item, name):
        """Notes an item that has no comment."""
        if not item.docs:
            self.bare.append(f"{item.file}:{item.line}: {name}")

    def item(self, path, item):
        """The page of an item."""
        self.commented(item, item.name)
        body = f"<h1>{item.kind} {html.escape(path)}</h1><p><small>of "
        body += f'<a href="index.html">{item.crate}</a>, {item.file}:{item.line}</small></p>'
        body += self.parts(item) or self.signature(item.head)
        body += pages.markdown(item.docs)
        if item.clauses:
            body += "<h2>What it promises</h2>" + self.clauses(item, 1)
        if item.traits:
            body += f"<p>It is {', '.join(map(html.escape, item.traits))}.</p>"
        if item.methods:
            body += "<h2>Methods</h2>" + "".join(self.method(m, item) for m in item.methods)
        url = self.homes[id(item)]
        self.write(url, path, body)
        about = pages.first_sentence(item.docs)
        self.rows.append([path, item.kind, url, f"{item.crate}: {about}"])
        for method in item.methods:
            about = pages.first_sentence(method.docs)
            name = f"{item.name}::{method.name}"
            self.rows.append([name, "method", f"{url}#{method.name}", f"{item.crate}: {about}"])

    def crate(self, name, module):
        """The pages of a crate and of its items."""
        body = f"<h1>crate {name}</h1>{pages.markdown(module.docs)}"
        kinds = {}
        for path, item in sorted(self.api[name].items()):
            if self.homes.get(id(item), "").startswith(f"{name}/") and item.crate == name:
                if self.homes[id(item)] == f"{name}/{path.replace('::', '.')}.html":
                    self.item(path, item)
            if id(item) in self.homes:
                row = f'<tr><td><a href="../{self.homes[id(item)]}">{html.escape(path)}</a></td>'
                row += f"<td>{pages.inline(pages.first_sentence(item.docs))}</td></tr>"
                kinds.setdefault(item.kind, []).append(row)
        for kind, rows in sorted(kinds.items()):
            body += f"<h2>{kind}</h2><table>{''.join(rows)}</table>"
        specs = sorted({page for (crate, *_), page in self.defined.items() if crate == name})
        body += "<h2>definitions</h2><ul>" if specs else ""
        for page in specs:
            body += f'<li><a href="../{page}">{Path(page).stem}</a></li>'
        self.write(f"{name}/index.html", name, body + ("</ul>" if specs else ""))

    def definitions(self):
        """The pages of the files of specs/."""
        for crate, path, lines in self.specs:
            names = source.defined_in(lines)
            own = {name: (crate, path, name) for name in names.values()}
            links = source.names_used(lines) | own
            found = []
            for number, line in enumerate(lines):
                comment = line.lstrip().startswith("--")
                text = pages.linked(line, {} if comment else links, self.address(2))
                anchor = names.get(number)
                found.append(f'<span id="{anchor}">{text}</span>' if anchor else text)
            body = f'<h1>{path}</h1><p><small>of <a href="../index.html">{crate}</a></small></p>'
            body += f"<pre>{chr(10).join(found)}</pre>"
            self.write(f"{crate}/specs/{path}.html", path, body)

    def index(self):
        """The first page, and what the search field looks through."""
        rows = ""
        for name in self.api:
            about = pages.inline(pages.first_sentence(self.crates[name].docs))
            rows += f'<tr><td><a href="{name}/index.html">{name}</a></td><td>{about}</td></tr>'
        self.write("index.html", "protobuf_parse", f"<h1>Crates</h1><table>{rows}</table>")
        (self.folder / "items.js").write_text(f"const ITEMS = {json.dumps(self.rows)};\n")
        (self.folder / "search.js").write_text(pages.SEARCH)
        (self.folder / "style.css").write_text(pages.STYLE)


def main():
    """Writes all pages."""
    parser = argparse.ArgumentParser(description=__doc__)
    parser.add_argument("folder")
    site = Site(parser.parse_args().folder)
    for name in site.api:
        site.crate(name, site.crates[name])
    site.definitions()
    site.index()
    for line in site.bare:
        print(line)
    items = sum(row[1] != "method" for row in site.rows)
    print(f"{items} items of {len(site.api)} crates, {len(site.bare)} without a comment")
    return 1 if site.bare else 0


if __name__ == "__main__":
    sys.exit(main())
