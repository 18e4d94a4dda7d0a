"""Looks at the pages of `cesr judge --html` as a person would: reads them, and sees whether they can be read.

look.py CHROMIUM CESR FOLDER; pictures go to FOLDER, for who wants to look too."""

import hashlib
import pathlib
import re
import signal
import subprocess
import sys

from browser import Browser

program, cesr, folder = sys.argv[1], pathlib.Path(sys.argv[2]).resolve(), pathlib.Path(sys.argv[3]).resolve()
here = pathlib.Path(__file__).parent
questions = (here / "questions.js").read_text()
samples = sorted(path for path in pathlib.Path("samples").glob("*.cesr"))

# Width, colours, medium. Paper is A4 without its margins.
VIEWS = {
    "wide-light": (1280, "light", "screen"),
    "wide-dark": (1280, "dark", "screen"),
    "narrow-light": (360, "light", "screen"),
    "narrow-dark": (360, "dark", "screen"),
    "narrowest": (300, "light", "screen"),
    "paper": (673, "light", "print"),
    "paper-dark": (673, "dark", "print"),
}


# What would be wrong with a page, the view in which it shows, and how it is said.
FAULTS = [
    ("word-break: normal", "word-break: break-all", "narrowest", "broken word"),
    ("max-width: 65rem;", "min-width: 60rem;", "narrow-light", "wider than the window"),
    ("--soft: #565c66", "--soft: #a0a5ad", "wide-light", "hard to read"),
    ("--soft: #aab0ba", "--soft: #555b66", "narrow-dark", "hard to read"),
    ("--page: #ffffff; --ink: #000000", "--page: #16181c; --ink: #e9eaec", "paper-dark", "paper is not white"),
    ("✕</span> failed", "</span> failed", "wide-light", "an outcome without its sign"),
    ("fill: url(#refused)", "fill: #b32020", "wide-light", "something refused has a plain fill"),
    ('class="mark"', 'class="other"', "wide-light", "something refused has no mark"),
    ("<footer>", "<script></script><footer>", "wide-light", "the page is not whole by itself"),
]

# Names that look like markup, and that have no place to be broken.
ODD = "<b>passed</b> & 'passed'".replace("/", "\u2044")
LONG = "x" * 200


def prepared():
    """The streams that no sample is."""
    folder.mkdir(parents=True, exist_ok=True)
    (folder / ODD).write_bytes(b"MAAB")
    (folder / LONG).write_bytes(b"MQAA" * 1234)
    for name in ("clean.cesr", "cut.cesr"):
        (folder / name).write_bytes((pathlib.Path("samples") / name).read_bytes())
    listed = subprocess.run([cesr, "manifest", "--form", "text", "clean.cesr", "cut.cesr"], cwd=folder, capture_output=True)
    (folder / "due.list").write_bytes(listed.stdout)


def judged(name, arguments, stdin=b""):
    """The page of a call, and its exit status."""
    page = folder / f"{name}.html"
    ran = subprocess.run([cesr, "judge", "--html", page, *arguments], input=stdin, capture_output=True)
    return page, ran.returncode


def sha256(path):
    return hashlib.sha256(pathlib.Path(path).read_bytes()).hexdigest()


def long_stream():
    """Groups and items of all sizes, of signatures too, a refused one a thousandth wide, a remainder."""
    inner = b"-AACMAABMAAB-BAD-CABMAABMAAB"
    parts = [b"-A" + b"AH" + inner] * 40 + [b"MAAB"] * 2000 + [b"MQAA"] + [b"MAAB"] * 1500
    parts += [b"-KAs" + b"A" * 176, b"-AAuMAAB" + b"-KAs" + b"B" * 176, b"E" + b"A" * 43, b"_AAA" * 90]
    return b"".join(parts)


def pages():
    """Name, call, standard input, status, and what must be read there."""
    yield "first", ["samples/first.cesr"], b"", 1, [
        "✕ failed", "samples/first.cesr", "5 items, 4 accepted, 1 refused, no remainder", "92 of 136 characters", sha256("samples/first.cesr"),
        "Item 2: refused 8 at 80", "must be zero and are not", "8: pad bit or lead byte not zero",
        "E Blake3-256 Digest, 44 characters from 80", "a value padded behind its end", "cesr 0.",
        "E8wYuBjhslETYaLZcxMkWrhVbMcA8RS1pKYl7nJ77ntA",
    ]
    yield "clean", ["samples/clean.cesr"], b"", 0, ["✓ passed", "Every byte lies in an accepted item.", "136 of 136 characters"]
    yield "cut", ["samples/cut.cesr"], b"", 1, [
        "Remainder 4 from 8", "52 characters", "asks for 72 characters, 52 characters are left", "remainder, not judged"]
    yield "faults", ["samples/faults.cesr"], b"", 1, [
        "Item 0: refused 4 at 4", "at 4: 0A Random salt", "-A Generic pipeline group, 8 characters from 0",
        "asks for 24 characters, 4 characters are left", "Item 7: refused 11", "64 groups, one in the other", "the byte at 15 is 21",
        "Item 8: refused 15 at 312", "at 312: 2B Ed25519 indexed sig, big current only",
        "Item 9: refused 16 at 404", "behind the fill A the text starts with A",
        "Item 11: refused 19 at 431", "URL-safe Base64 has - for the + at 431"]
    yield "binary", ["samples/first-binary.cesr"], b"", 1, ["Item 2: refused 8 at 60", "Bytes from 60 on", "13CC18B818E1"]
    yield "many", [*samples, "gone.cesr", "/dev/null"], b"", 2, [
        "! error", "9 streams: 3 passed, 4 failed, 2 not judged", "gone.cesr", "No such file or directory", "∅ empty",
        "the stream is empty: nothing was judged", "Refused by number"]
    yield "manifest", ["--manifest", folder / "due.list"], b"", 1, [
        "2 streams, 2 expected: 1 passed, 1 failed", f"Manifest {folder / 'due.list'}", sha256(folder / "due.list")]
    yield "names", [folder / ODD, folder / LONG], b"", 1, ["<b>passed<\\u{2044}b>\\ &\\ 'passed'", LONG,
        "1235 items", "Item 999: refused 8", "234 more items are refused and not listed", "Refused by number"]
    yield "long", ["-"], long_stream(), 1, ["standard input", "Remainder 6 from", "1 refused"]


def said(text):
    return re.sub(r"\s+", " ", text)


def looked_at(browser, name, expected):
    """In every view: what is wrong, and whether all is there to be read. A page of a thousand refusals takes its time."""
    views = VIEWS if name != "names" else {view: VIEWS[view] for view in ("wide-light", "narrowest")}
    for view, (width, scheme, media) in views.items():
        browser.view(width, scheme, media)
        wrong = browser.ask(questions)
        assert wrong == [], f"{name}, {view}: {wrong[:9]}"
        text = said(browser.ask("document.body.innerText"))
        for words in expected:
            assert words in text, f"{name}, {view}: not to be read: {words}\n{text[:3000]}"
        browser.picture(folder / f"{name}-{view}.png")


def faults_are_found(browser, page):
    """Would anybody notice? Each fault by itself, in a copy of a page."""
    for old, new, view, told in FAULTS:
        text = page.read_text()
        assert old in text, old
        copy = folder / "fault.html"
        copy.write_text(text.replace(old, new))
        browser.open(copy)
        browser.view(*VIEWS[view])
        wrong = browser.ask(questions)
        assert any(one.startswith(told) for one in wrong), f"not found: {new}: {wrong}"
    copy.unlink()


def main():
    # A browser that hangs ends the test.
    signal.alarm(900)
    prepared()
    browser = Browser(program)
    count = 0
    for name, arguments, stdin, status, expected in pages():
        page, came = judged(name, arguments, stdin)
        assert came == status, f"{name}: status {came}"
        browser.open(page)
        looked_at(browser, name, expected)
        browser.paper(folder / f"{name}.pdf")
        count += 1
    faults_are_found(browser, folder / "first.html")
    browser.end()
    print(f"{len(FAULTS)} faults found, {count} pages looked at in {len(VIEWS)} views; pictures in {folder.relative_to(pathlib.Path.cwd())}")


main()
