"""The pages of a release, as HTML."""

import html
import os
import re

from files import ROOT, files_below, put, read, said, stop, tracked

STYLE = """:root { color-scheme: light dark }
body { max-width: 50em; margin: 2em auto; padding: 0 1em; font: 16px/1.5 sans-serif }
pre, code { background: #8882 }
pre { padding: .6em; overflow: auto }
table { border-collapse: collapse }
td, th { border: 1px solid #8888; padding: .2em .5em; vertical-align: top }
img { max-width: 100%; background: #fff }
@media print {
    pre { white-space: pre-wrap }
    h1, h2, h3 { break-after: avoid }
    tr { break-inside: avoid }
}
"""


def anchored(body):
    """Gives each heading the anchor that code hosts give it, as tests/test_pages.py reads them:
    cmark-gfm gives it none."""
    times = {}

    def heading(match):
        base = re.sub(
            r"[^\w\- ]", "", html.unescape(re.sub(r"<[^>]*>", "", match[2])).lower()
        ).replace(" ", "-")
        anchor = f"{base}-{times[base]}" if base in times else base
        times[base] = times.get(base, 0) + 1
        return f'<h{match[1]} id="{anchor}">{match[2]}</h{match[1]}>'

    return re.sub(r"<h([1-6])>(.*?)</h\1>", heading, body, flags=re.S)


def page_of(path):
    """Returns a page of Markdown as HTML. Its links lead to the other pages as they are here."""
    body = anchored(
        said(
            "cmark-gfm",
            "--unsafe",
            "-e",
            "table",
            "-e",
            "strikethrough",
            "-e",
            "autolink",
            "-e",
            "tasklist",
            f"{ROOT}/{path}",
        )
    )
    body = re.sub(r'(<a href="(?![a-z]+:)[^"#]*)\.md(["#])', r"\1.html\2", body)
    title = re.search(r"<h1[^>]*>(.*?)</h1>", body, re.S)
    title = re.sub(r"<[^>]*>", "", title[1]) if title else os.path.basename(path)
    top = "../" * path.count("/")
    return (
        '<!DOCTYPE html>\n<html lang="en"><head><meta charset="utf-8"><meta name="viewport"'
        f' content="width=device-width"><title>{title}</title>\n<link rel="stylesheet"'
        f' href="{top}style.css"></head><body>\n<p><a href="{top}docs/index.html">All'
        f" pages</a></p>\n{body}\n</body></html>\n"
    )


def dead_link(folder, path, link):
    """Whether this link of a page leads to no file or no heading."""
    target, _, anchor = html.unescape(link).partition("#")
    other = (
        os.path.normpath(os.path.join(folder, os.path.dirname(path), target))
        if target
        else f"{folder}/{path}"
    )
    return not os.path.isfile(other) or (anchor and f'id="{anchor}"' not in read(other).decode())


def put_html(folder):
    """Writes all pages with their pictures, and stops at a link that leads nowhere."""
    put(f"{folder}/style.css", STYLE)
    for path in tracked("*.md"):
        put(f"{folder}/{path[:-3]}.html", page_of(path))
    for path in tracked("docs"):
        if path.endswith(".svg"):
            put(f"{folder}/{path}", read(f"{ROOT}/{path}"))
    for path in files_below(folder):
        if path.endswith(".html"):
            for link in re.findall(r'(?:href|src)="([^"]*)"', read(f"{folder}/{path}").decode()):
                if not re.match(r"[a-z]+:", link) and dead_link(folder, path, link):
                    stop(f"{path}: {link} leads nowhere")
