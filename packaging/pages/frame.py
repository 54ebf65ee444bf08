"""The frame of each page of the site: its head with the search, its style, and the little script that it needs.

A module of packaging/site. No page asks another host for anything.
"""
from __future__ import annotations

from html import escape
from typing import List, Tuple

from linked_code import way

STYLE = """
body { margin: 0; font: 16px/1.55 system-ui, "DejaVu Sans", Verdana, sans-serif; color: #1f2328; background: #fff }
header { position: sticky; top: 0; z-index: 2; display: flex; flex-wrap: wrap; gap: .3em 1.1em; align-items: center;
  padding: .5em 1.2em; background: #1f2d3d; color: #fff }
header a { color: #fff; text-decoration: none } header a:hover { text-decoration: underline }
header b a { font-size: 1.1em }
header form { margin-left: auto; position: relative }
header input { font: inherit; padding: .15em .5em; width: 17em; border: 0; border-radius: 4px }
#found { position: absolute; right: 0; top: 2.2em; width: min(44em, 92vw); max-height: 70vh; overflow: auto; background: #fff;
  color: #1f2328; border: 1px solid #8c959f; border-radius: 4px; box-shadow: 0 4px 14px #0003 }
#found:empty { display: none }
.hit { display: block; padding: .25em .7em; border-bottom: 1px solid #eaeef2; text-decoration: none; color: inherit !important }
.hit:hover, .hit.on { background: #ddf4ff; text-decoration: none !important }
.hit small { color: #57606a; display: block }
main { max-width: 62em; margin: 0 auto; padding: 1em 1.2em 5em }
h1, h2, h3, h4 { line-height: 1.25; scroll-margin-top: 3.2em } h2 { margin-top: 1.8em; border-bottom: 1px solid #d0d7de }
a { color: #0550ae; text-decoration: none } a:hover { text-decoration: underline }
p a, li a, td a { text-decoration: underline; text-decoration-color: #0550ae55 }
code, pre { font: 13.5px/1.5 "DejaVu Sans Mono", Menlo, Consolas, monospace }
h1 code, h2 code, h3 code { font-size: .92em } :not(pre) > code { background: #f3f4f6; padding: 0 .2em; border-radius: 3px }
pre { background: #f6f8fa; border: 1px solid #d8dee4; border-radius: 5px; padding: .7em .9em; overflow-x: auto }
pre.code { white-space: pre-wrap; word-break: break-word }
pre .c { color: #5b6570 } a.l { color: #6e4506 } a.f { color: #1a6b3c }
table { border-collapse: collapse; margin: 1em 0; display: block; overflow-x: auto }
td, th { border: 1px solid #d0d7de; padding: .3em .6em; text-align: left; vertical-align: top } th:empty { padding: 0 }
img { max-width: 100% } svg { max-width: 100%; height: auto }
.item { margin: 1.4em 0 } .item > h4, .place { margin: .2em 0; font-weight: normal }
.item, .place, [id] { scroll-margin-top: 3.6em } :target > pre, span:target { outline: 2px solid #bf8700; background: #fff8c5 }
.kind { font-size: .75em; padding: 0 .45em; border-radius: 8px; background: #eaeef2; color: #424a53; vertical-align: .1em }
.kind.law { background: #dafbe1; color: #116329 } .kind.definition { background: #ddf4ff; color: #0a3069 }
.where { color: #57606a; font-size: .85em }
details { margin: .3em 0 .3em 1em; border-left: 2px solid #d0d7de; padding-left: .8em }
details[open] > summary { font-weight: bold } summary { cursor: pointer; scroll-margin-top: 3.6em }
.parts { columns: 17em; list-style: none; padding: 0; margin: .4em 0 } .parts li { break-inside: avoid }
ul.short li { margin: .15em 0 } footer { color: #57606a; font-size: .85em; margin-top: 4em; border-top: 1px solid #d0d7de }
"""
# What is asked is looked up in search.js, which is read when it is needed first. `found` ranks: the whole name, its beginning,
# its inside, what is said of it; then the kind, and shorter names first.
SCRIPT = """
"use strict";
var top_of_site = document.documentElement.dataset.top, waiting = [];
function with_names(then) {
  if (window.NAMES) return then(window.NAMES);
  waiting.push(then);
  if (waiting.length > 1) return;
  var it = document.createElement("script");
  it.src = top_of_site + "search.js";
  it.onload = function () { waiting.forEach(function (f) { f(window.NAMES); }); waiting = []; };
  document.head.appendChild(it);
}
function found(names, asked, most) {
  var terms = asked.toLowerCase().split(/\\s+/).filter(Boolean), hits = [];
  if (!terms.length) return hits;
  names.rows.forEach(function (row, at) {
    var name = row[0].toLowerCase(), own = name.split("::").pop(), said = (row[3] || "").toLowerCase(), worst = 0;
    for (var k = 0; k < terms.length; k++) {
      var t = terms[k], rank = own === t || name === t ? 0 : own.indexOf(t) === 0 ? 1 : name.indexOf(t) >= 0 ? 2 : said.indexOf(t) >= 0 ? 3 : 9;
      if (rank === 9) return;
      worst += rank;
    }
    hits.push([worst, row[1], name.length, at, row]);
  });
  hits.sort(function (a, b) { return a[0] - b[0] || a[1] - b[1] || a[2] - b[2] || a[3] - b[3]; });
  return hits.slice(0, most).map(function (it) { return it[4]; });
}
function shown(names, rows, into) {
  into.textContent = "";
  rows.forEach(function (row) {
    var a = document.createElement("a"), small = document.createElement("small");
    a.className = "hit"; a.href = top_of_site + row[2];
    a.textContent = row[0] + "  \\u00b7  " + names.kinds[row[1]];
    small.textContent = row[3] || "";
    a.appendChild(small); into.appendChild(a);
  });
}
function opened() {
  var it = null;
  try { it = document.getElementById(decodeURIComponent(location.hash.slice(1))); } catch (e) { return; }
  if (!it) return;
  for (var up = it; up; up = up.parentElement) if (up.tagName === "DETAILS") up.open = true;
  it.scrollIntoView();
}
function begun() {
  var input = document.querySelector("header input"), list = document.getElementById("found");
  input.addEventListener("input", function () {
    with_names(function (names) { shown(names, found(names, input.value, 40), list); });
  });
  input.addEventListener("keydown", function (e) {
    var hits = Array.from(list.children), at = hits.findIndex(function (h) { return h.classList.contains("on"); });
    if (e.key === "Escape") { list.textContent = ""; input.blur(); }
    if (e.key === "ArrowDown" || e.key === "ArrowUp") {
      e.preventDefault();
      hits.forEach(function (h) { h.classList.remove("on"); });
      var next = hits[(at + (e.key === "ArrowDown" ? 1 : hits.length - 1) + (at < 0 && e.key === "ArrowUp" ? 1 : 0)) % hits.length];
      if (next) { next.classList.add("on"); next.scrollIntoView({ block: "nearest" }); }
    }
    if (e.key === "Enter" && at >= 0) { e.preventDefault(); hits[at].click(); }
  });
  document.addEventListener("click", function (e) { if (!e.target.closest("form")) list.textContent = ""; });
  document.addEventListener("keydown", function (e) {
    if (e.key === "/" && !/INPUT|TEXTAREA/.test(document.activeElement.tagName)) { e.preventDefault(); input.focus(); }
  });
  document.querySelectorAll("[data-all]").forEach(function (b) {
    b.addEventListener("click", function () {
      var open = b.dataset.all === "open";
      document.querySelectorAll("main details").forEach(function (d) { d.open = open; });
    });
  });
  window.addEventListener("hashchange", opened);
  opened();
  var into = document.getElementById("hits"), asked = new URLSearchParams(location.search).get("for");
  if (into && asked !== null) {
    input.value = asked;
    with_names(function (names) {
      var rows = found(names, asked, 300);
      shown(names, rows, into);
      document.getElementById("count").textContent = rows.length ? rows.length + " found for \\u201c" + asked + "\\u201d" : "Nothing is called \\u201c" + asked + "\\u201d.";
    });
  }
}
document.addEventListener("DOMContentLoaded", begun);
"""
BAR: List[Tuple[str, str]] = [("Theorem", "docs/THEOREM.html"), ("Proved", "docs/PROVED.html"), ("Floors", "floors/index.html"),
                              ("Pages", "pages.html"), ("How to add", "files.html")]


def framed(page: str, title: str, inside: str) -> str:
    """A whole page: what stands inside, with the head."""
    top = way(page, "index.html")[: -len("index.html")] or "./"
    bar = " ".join(f'<a href="{way(page, url)}">{escape(name)}</a>' for name, url in BAR)
    return f"""<!DOCTYPE html>
<html lang="en" data-top="{top}">
<head>
<meta charset="utf-8">
<meta name="viewport" content="width=device-width, initial-scale=1">
<title>{escape(title)} · torusmem</title>
<style>{STYLE}</style>
<script>{SCRIPT}</script>
</head>
<body>
<header>
<b><a href="{way(page, "index.html")}">torusmem</a></b> {bar}
<form action="{way(page, "search.html")}" role="search"><input name="for" type="search" placeholder="search a name (press /)" aria-label="search" autocomplete="off"><div id="found"></div></form>
</header>
<main>
{inside}
</main>
</body>
</html>
"""
