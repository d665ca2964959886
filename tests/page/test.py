"""The page as a person uses it: what is searched is found, what is played is heard, and the keys do what they say."""

import pathlib
import subprocess
import sys
import tempfile
import urllib.parse

sys.path.insert(0, str(pathlib.Path(__file__).parent))
sys.dont_write_bytecode = True
from browser import Browser  # noqa: E402
from sheet import sheet  # noqa: E402

NOTES = 700
SPACE, BACKSPACE, ENTER, ESCAPE, END, UP, DOWN = " ", "\ue003", "\ue007", "\ue00c", "\ue010", "\ue013", "\ue015"
ROW = "#rows .row:not([hidden])"
ROWS = f"[...document.querySelectorAll('{ROW}')]"
NAMES = f"return {ROWS}.sort((a, b) => a.ariaRowIndex - b.ariaRowIndex).map(row => row.querySelector('.name b').textContent)"
CURRENT = "return document.querySelector('#rows [aria-current] .name b')?.textContent"
TIME = "document.getElementById('audio').currentTime"
NARROW = "document.documentElement.scrollWidth <= innerWidth"
WIDE = "[...document.querySelectorAll('#live *')].filter(each => each.getBoundingClientRect().right > innerWidth).map(each => each.outerHTML.slice(0, 80))"
PAUSED = "document.getElementById('audio').paused"
PIECE = "Ende & <Anfang>.wav"
SCORE = "time,slot,kind,note,play,accent,structure,brightness,damping\n0,0,modal,A3,trigger,0.5,0.4,0.5,0.8\n"
SOUND = "document.querySelector('#piece audio')"


def expect(holds, what):
    if not holds:
        raise AssertionError(what)


def same(found, expected, what):
    expect(found == expected, f"{what}: {found!r} and not {expected!r}")


def render(tool, folder):
    """Renders the sheet in whole samples, so that a note clips, beside a piece."""
    (folder / "score.csv").write_text(SCORE)
    play = [tool, "play", folder / "score.csv", "-o", folder / "notes" / PIECE, "--gain", "-12", "--quiet"]
    same(subprocess.run(play).returncode, 0, "the exit status of a score")
    path = folder / "sheet.csv"
    path.write_text(sheet(NOTES))
    command = [tool, "render", path, "-o", folder / "notes", "--bits", "16", "--gain", "-12", "--piece", PIECE, "--quiet"]
    status = subprocess.run(command, stderr=subprocess.DEVNULL).returncode
    same(status, 1, "the exit status of a sheet with refused notes")


def choose(browser, selector, value):
    browser.run(f"const e = document.querySelector('{selector}'); e.value = '{value}'; e.dispatchEvent(new Event('input'))")


def edges(browser, element):
    return browser.run(f"const box = {element}.getBoundingClientRect(); return [box.top, box.bottom, box.left, box.right, innerWidth, innerHeight]")


def shown(browser):
    return browser.run("return document.getElementById('shown').textContent")


def searches(browser):
    same(shown(browser), f"{NOTES} of {NOTES} shown.", "all notes are shown")
    expect(len(browser.run(NAMES)) < 60, "no more rows are there than are seen")
    browser.type("#search", "bell 67")
    same(browser.run(NAMES), ["bell 67", "bell 367", "bell 667", "bell 670", "bell 673", "bell 676", "bell 679"], "a search, of notes of the last page too")
    browser.type("#search", "ÜMLAUT last")
    same(browser.run(NAMES), ["ümlaut & last"], "a search of two words in capitals")
    browser.type("#search", "nothing of the kind")
    same(browser.run(NAMES), [], "a search of what is not there")
    browser.type("#search", "pluck 6")
    choose(browser, "#kind", "string")
    same(browser.run(NAMES)[:4], ["pluck 6", "pluck 36", "pluck 60", "pluck 66"], "a search among strings")
    browser.type("#search", "x")
    browser.press(BACKSPACE)
    choose(browser, "#kind", "")
    same(shown(browser), f"{NOTES} of {NOTES} shown.", "all notes are shown again")


def sorts(browser):
    choose(browser, "#sort", "name")
    same(browser.run(NAMES)[:4], ["Änd #1", "bell 1", "bell 4", "bell 7"], "names in order, numbers as such")
    values = "return catalogue.shown.map(note => note.{0}).filter(value => value !== null)"
    for by in ["pitch", "loudness", "peak"]:
        choose(browser, "#sort", by)
        found = browser.run(values.format(by))
        expect(len(found) > 2 and found == sorted(found), f"{by} rises")
    browser.click("#down")
    found = browser.run(values.format("peak"))
    same(found, sorted(found, reverse=True), "peak falls")
    same(browser.run(NAMES)[0], "too hot", "the highest peak")
    browser.click("#down")
    choose(browser, "#sort", "place")
    browser.click("#first")
    same(browser.run(NAMES)[:5], ["too high", "no such kind", "empty", "too hot", "pluck 0"], "refused and warned first")
    expect("must be 0.0458hz to 24000hz" in browser.run("return document.querySelector('#rows .refused:not([hidden])').textContent"), "a refused note's reason")
    browser.click("#first")


def plays(browser):
    browser.type("#search", "Änd")
    browser.click(f"{ROW} .play button")
    browser.wait(f"{TIME} > 0.1", "the note that is pressed plays: its time moves")
    same(browser.run("return document.getElementById('play').textContent"), "Stop", "the player's button")
    source = browser.run("return document.getElementById('audio').src")
    expect(urllib.parse.unquote(source).endswith("/notes/Änd #1.wav"), source)
    browser.click("#play")
    browser.wait(PAUSED, "the player's button stops it")
    browser.run("const seek = document.getElementById('seek'); seek.value = 500; seek.dispatchEvent(new Event('input'))")
    browser.wait(f"Math.abs({TIME} - 1) < 0.05", "the slider goes to the middle")


def piece(browser):
    """The piece is on top with its title, and of it and a note the one that begins stops the other."""
    same(browser.run("return document.querySelector('#piece b').textContent"), "Ende & <Anfang>", "the title of the piece")
    same(browser.run("return document.getElementById('live').firstElementChild.id"), "piece", "what is on top")
    browser.click(f"{ROW} .play button")
    browser.wait(f"!{PAUSED} && {TIME} > 0.05", "a note plays")
    browser.run(f"{SOUND}.play()")
    browser.wait(f"{SOUND}.currentTime > 0.1 && {PAUSED}", "the piece plays, and the note stops")
    same(browser.run(f"return {SOUND}.duration"), 4, "the seconds of the piece")
    same(browser.run("return document.getElementById('play').textContent"), "Play", "the player's button beside the piece")
    browser.click("#play")
    browser.wait(f"!{PAUSED} && {SOUND}.paused", "a note plays, and the piece stops")
    browser.click("#play")


def keys(browser):
    browser.run("document.activeElement.blur()")
    browser.press("/")
    same(browser.run("return document.activeElement.id"), "search", "/ goes to the search")
    browser.type("#search", "6")
    browser.press(ENTER)
    same(browser.run(CURRENT), "pluck 6", "enter goes to the first row")
    browser.press(DOWN, DOWN, UP)
    same(browser.run(CURRENT), "bell 16", "the arrows move")
    expect(browser.run("return document.activeElement.hasAttribute('aria-current')"), "the row has the focus")
    browser.press(*[DOWN] * 60)
    top, bottom, *_ = edges(browser, "document.activeElement")
    expect(top >= 0 and bottom <= edges(browser, "document.getElementById('dock')")[0] + 1, "the row that the arrows come to is seen")
    browser.wait(f"{ROWS}.map(row => +row.ariaRowIndex).every((row, k, rows) => row - k === rows[0])", "the rows are there in their order")
    choose(browser, "#search", "Änd")
    browser.run("document.activeElement.blur()")
    browser.press(UP, SPACE)
    browser.wait(f"!{PAUSED} && {TIME} > 0.05", "space plays")
    browser.press(SPACE)
    browser.wait(PAUSED, "space stops")
    browser.press("/", ESCAPE, "s")
    same(browser.run("return document.getElementById('spectra').ariaPressed"), "true", "s shows spectrograms")


def follows(browser):
    """The player goes on with the row that the arrows come to."""
    choose(browser, "#search", "")
    browser.run("document.activeElement.blur()")
    browser.press(END, SPACE)
    browser.wait(f"!{PAUSED} && {TIME} > 0.05", "the last row plays")
    browser.press(UP)
    same(browser.run(CURRENT), "Änd #1", "the row before")
    browser.wait(f"!{PAUSED} && {TIME} > 0.05 && document.getElementById('audio').duration === 2", "the row before plays")
    browser.press(SPACE)


def pictures(browser):
    """Spectrograms are there now, and were not loaded before; a hot note looks hot."""
    picture = f"document.querySelector('{ROW} .picture img')"
    browser.wait(f"{picture}?.naturalWidth === 120 && {picture}.naturalHeight === 60", "a spectrogram")
    browser.press("s")
    choose(browser, "#search", "too hot")
    browser.wait(f"document.querySelector('{ROW} .hot')?.getAttribute('d').length > 100", "a hot waveform")
    off = browser.run("""
        return catalogue.notes.filter(note => note.peak !== null && note.place < 250).map(note => {
            const highest = Math.max(...columns(chunks.waves.get(1)[note.place]).flat().map(Math.abs)) / FULL;
            return Math.abs(highest - 10 ** (note.peak / 20));
        });""")
    expect(len(off) == 248 and max(off) < 0.003, "waveforms are as high as their peaks on the scale of full scale")
    choose(browser, "#search", "bell 67")
    browser.wait(f"document.querySelector('{ROW} svg path:nth-child(2)')?.getAttribute('d').length > 1000", "a waveform")
    choose(browser, "#search", "")


def fits(browser):
    """Nothing is wider than a phone, and the player is whole on it."""
    for width in [390, 1280]:
        browser.size(width, 844)
        browser.run("scrollTo(0, 20000)")
        same(browser.run(f"scrollTo(90, scrollY); return [scrollX, {NARROW}]"), [0, True], f"{width} pixels do not scroll sideways")
        same(browser.run(f"return {WIDE}"), [], f"what is wider than {width} pixels")
        top, bottom, left, right, wide, high = edges(browser, "document.getElementById('play')")
        expect(left >= 0 and right <= wide and bottom <= high and bottom - top >= 44, f"the player's button is whole at {width} pixels")


def without_script(browser, address):
    """The table of each page is there without a script, and where its list is not."""
    browser.scripts(False)
    browser.open(address.replace("index", "index-3"))
    browser.scripts(True)
    rows = browser.run("return ['#still tbody tr', '#still audio'].map(of => document.querySelectorAll(of).length)")
    same(rows, [NOTES - 500, NOTES - 499], "the rows and their players without a script, and that of the piece")
    same(browser.run("return document.getElementById('live').offsetHeight"), 0, "the height of what needs a script")
    same(browser.run(f"return {NARROW}"), True, "it does not scroll sideways")


def without_list(browser, folder):
    (folder / "notes" / "index-list.js").unlink()
    browser.open((folder / "notes" / "index.html").as_uri())
    browser.wait("document.getElementById('still').offsetHeight > 1000", "the table is there where the list is not")


def run(tool, folder):
    render(tool, folder)
    address = (folder / "notes" / "index.html").as_uri()
    browser = Browser(folder / "profile")
    try:
        browser.size(1280, 900)
        browser.open(address)
        browser.wait(f"{ROWS}.length > 0", "the rows")
        loaded = browser.run("return chunks.spectra.size")
        for part in [searches, sorts, plays, piece, keys, pictures, follows, fits]:
            part(browser)
        same(loaded, 0, "spectrograms that nobody asked for")
        same(browser.faults()[:3], [], "errors in the console")
        browser.size(390, 844)
        without_script(browser, address)
        without_list(browser, folder)
    finally:
        browser.close()


if __name__ == "__main__":
    with tempfile.TemporaryDirectory(prefix="bleidhvan-page-", ignore_cleanup_errors=True) as scratch:
        try:
            run(sys.argv[1], pathlib.Path(scratch))
        except AssertionError as error:
            sys.exit(f"test: the page: {error}")
    print("page: searched, sorted, played and read at both widths, with and without its script")
