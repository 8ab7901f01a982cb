"""Tests of the page: what it is made of, and how it behaves in a browser where one is installed."""
import html
import os
import re
import shutil
import subprocess
import tempfile

from front import command, document, kept, names, page, pieces, program

ROWS = os.path.join(program.TOP, "tests", "front_end")
POINTING = os.path.join(ROWS, "pointing.js")
NAME = "a<b>.rs"
WORDS = ["--headless", "--no-sandbox", "--disable-gpu", "--disable-dev-shm-usage", "--virtual-time-budget=20000", "--dump-dom"]
PATIENCE = 120


def source_of(name):
    """A row's file, with no condition that holds."""
    options = document.Options()
    options.sources, options.resolve, options.conditions = True, True, document.conditions_of([])
    with open(os.path.join(ROWS, name + ".tree"), encoding="utf-8") as file:
        options.parse = kept.Keeper(kept.read(file.read()))
    return pieces.Source(command.content(os.path.join(ROWS, name + ".rs")), options)


def shown_text(made):
    """The text at the left, without marks."""
    begin = made.index("<pre id=code>") + len("<pre id=code>")
    return html.unescape(re.sub(r"<[^>]*>", "", made[begin:made.index("</pre>", begin)]))


def structure(made, source, tally):
    """What a page has to be made of, whatever it shows."""
    tally.same("page", "source", source.text.decode(), shown_text(made))
    tally.same("page", "other files", [], re.findall(r'(?:\bsrc|\bhref)=(?!"#")[^ >]*|\burl\(|@import|https?:', made))
    tally.same("page", "scripts", 1, made.count("</script>"))
    left = set(re.findall(r"class=r data-r=(\d+)", made))
    tally.same("page", "ranges that no span has", [], [number for number in re.findall(r"data-r=\"?(\d+)", made) if number not in left])
    tally.same("page", "texts that aren't filled in", [], re.findall(r"\{\{(?!NAME\}\}\"|NAME\}\}<)\w+\}\}", made))
    balanced = made[made.index("<header>"):made.index("<script>")]
    for name in ("span", "i", "b", "u", "pre", "section"):
        tally.same("page", f"ends of {name}", len(re.findall(rf"<{name}[ >]", balanced)), balanced.count(f"</{name}>"))


SCOPES = ["scope 0 - names : x/0#3@4", "expr 9 7 0", "read 9 7 x 0 = x/0#3@4", "read 10 - x 0 = x/0#3@4", "read 11 1:2 y 0 = -",
          "read 12 8 = 0 = =/0#5@6@1:6", "read 13 9 x - = -", "read 14 11 x 2 = x/0#3@4"]


def meanings(tally):
    """What names mean is read out of what the program for scopes prints."""
    tally.same("page", "what names mean", [([4], [7, 11]), ([6], [8])], names.meanings(SCOPES))


def run(lowering, tally):
    """Tests pages, and says what ran."""
    meanings(tally)
    source = source_of("shown")
    made = page.Page(source, lowering).html(NAME)
    structure(made, source, tally)
    tally.same("page", "name", 2, made.count(html.escape(NAME)))
    chips = sorted(set(re.findall(r'class=chip title="made up for `([^`]*)`', made)))
    tally.same("page", "what was made up", ["?", "async", "for", "while"], chips)
    told = re.findall(r"<li class=dg[^>]*><b>([\d:]+)</b> ([^<]*)</li>", made)
    tally.same("page", "diagnostics", ["1:87", "2:70"], [place for place, _ in told])
    forms, spans = made.count('<span class="n '), made.count("<span class=r ")
    said = browse(made, forms, spans, tally)
    return f"page: {forms} forms, {spans} spans, {len(told)} diagnostics; {said}; different {tally.different} in all"


def browser():
    """A browser without a window, or None."""
    named = [os.environ.get("CHROMIUM"), "chromium", "chromium-browser", "google-chrome"]
    return next((found for found in map(shutil.which, filter(None, named)) if found), None)


def browse(made, forms, spans, tally):
    """Points at everything in a browser, by a script behind the page, and presses keys."""
    found = browser()
    if found is None:
        return "no browser is installed, so it wasn't opened in one"
    with open(POINTING, encoding="utf-8") as file:
        script = file.read()
    with tempfile.TemporaryDirectory() as folder:
        path = os.path.join(folder, "page.html")
        with open(path, "w", encoding="utf-8") as file:
            file.write(made.replace("</html>", f"<script>{script}</script>\n</html>"))
        try:
            seen = subprocess.run([found, *WORDS, f"--user-data-dir={folder}/user", f"file://{path}#keys=m,m"], capture_output=True,
                                  timeout=PATIENCE, check=True)
        except (OSError, subprocess.SubprocessError) as error:
            return f"{os.path.basename(found)} can't be run ({type(error).__name__}), so it wasn't opened in it"
    result = re.search(r"<pre id=\"result\">(.*?)</pre>", seen.stdout.decode("utf-8", "replace"), re.S)
    lines = html.unescape(result[1]).split("\n") if result else ["nothing came back"]
    tally.same("browser", "what it says", [f"pointed at {forms} forms and {spans} spans", "all is well"], lines)
    return f"{os.path.basename(found)} pointed at {forms + spans} things"
