"""The page in a browser: opens it for a start, waits until it is whole, and compares what it shows with what the library says."""
import json
import pathlib
import re
import shlex
import subprocess
import sys
import tempfile

from browsing.browser import PATIENCE, Browser
from browsing.maps import READ, DrawnMap
from browsing.starts import bytes_text, text_of
from common import ROOT

DRAWN = "new Promise(done => setTimeout(() => requestAnimationFrame(() => requestAnimationFrame(() => done())), 100))"
VIEWS = {"wide": (1400, False), "narrow": (400, False), "dark": (1400, True)}
PHONE = (390, 844)


class Tally:
    """How much was compared, what of it differs, and which parts did not come to their end."""

    def __init__(self):
        self.compared, self.differ, self.failed = 0, 0, []

    def same(self, what, one, other, count=1):
        self.compared += count
        if one != other:
            self.differ += 1
            print(f"DIFFER {what}:\n  page     {one!r}\n  expected {other!r}", flush=True)


def words_of(labels):
    """The words of a slot, from the labels of its pieces: each with its place and how many sectors it takes."""
    words = []
    for label, kind, count in labels:
        run = re.fullmatch(r"([ab])(\d+)–(\d+)", label)
        if run:
            words += [f"{run[1]}{number}" for number in range(int(run[2]), int(run[3]) + 1)]
        else:
            words += [label.split("×")[0] or {"piece blank": "-"}.get(kind, "?")] * count
    return words


class Page:
    """A server and a browser of its own, or a browser with the page as a file. `same` is the tally's."""

    def __init__(self, library, tally, out=None, file=None):
        self.library, self.same, self.out = library, tally.same, out
        self.server, self.address, self.browser = None, file and file.resolve().as_uri(), None
        self.folder = tempfile.TemporaryDirectory(prefix="test-page-", ignore_cleanup_errors=True)
        if not file:
            self.server = subprocess.Popen([sys.executable, ROOT / "scripts/serve"], stdout=subprocess.PIPE, text=True, start_new_session=True)
            self.address = self.server.stdout.readline().strip()

    def __enter__(self):
        return self

    def __exit__(self, *_):
        if self.browser:
            self.browser.close()
        if self.server:
            self.server.terminate()
            self.server.wait(PATIENCE)
            self.server.stdout.close()
        self.folder.cleanup()

    def file(self, name, data):
        path = pathlib.Path(self.folder.name) / name
        path.write_bytes(data)
        return path

    def open(self, start, cuts=()):
        """Opens the page anew, with the start's files, and waits until it is whole."""
        self.visit(start.link() + "&a=made.8&b=made.8")
        wait = self.browser.wait
        flash = start.kind == "flash"
        self.await_done("wanted" if flash else "-")
        for place, data in zip(("flash",) if flash else ("a", "b"), start.files):
            self.browser.choose_file(f"#file-{place}", self.file(f"{place} of us.bin", data))
            wait(f"document.getElementById('name-{place}').textContent === '{place} of us.bin, {len(data):,} bytes'")
            self.await_done("-")
        if cuts:
            self.go_to(start.link(cuts))
        self.await_done(text_of(cuts))
        self.await_count()

    def visit(self, link=""):
        """Opens the page anew by a link alone."""
        self.browser = self.browser or Browser(pathlib.Path(self.folder.name) / "profile")
        self.browser.size(1400, 1000)
        self.browser.send("Page.navigate", url="about:blank")
        self.browser.send("Page.navigate", url=self.address + link)

    def go_to(self, link):
        self.browser.say(f"location.hash = {json.dumps(link)}")

    def set_field(self, name, value):
        self.browser.say(f"(it => {{ it.value = {json.dumps(value)}; it.dispatchEvent(new Event('change', {{ bubbles: true }})); }})"
                         f"(document.getElementById('{name}'))")

    def await_done(self, schedule):
        self.browser.wait(f"document.body?.dataset.done === '{schedule}'")

    def await_shown(self, schedule):
        """Waits until a schedule is shown, and all are counted; its map may still be filled."""
        self.browser.wait(f"document.body?.dataset.shown === '{schedule}' && !!document.getElementById('census')")

    def await_shown_alone(self, schedule):
        """Waits until a schedule is shown, also where the count is refused."""
        self.browser.wait(f"!document.getElementById('shown').hidden && !document.getElementById('shown').inert && "
                          f"document.getElementById('outcome').textContent !== '' && ['{schedule}', 'refused'].includes(document.body.dataset.shown)")

    def await_count(self):
        """Waits until all sequences are counted, which may take longer than all else."""
        self.browser.wait("!!document.getElementById('census')")

    def text(self, selector):
        return self.browser.say(f"document.querySelector({json.dumps(selector)}).textContent")

    def case(self, name, start, cuts):
        self.open(start, cuts)
        self.compare(name, start, cuts)
        self.photograph(name)

    # What it shows of a schedule.

    def compare(self, name, start, cuts):
        """Compares each text that the page shows of a schedule."""
        schedule = ["--schedule", text_of(cuts)]
        self.await_count()
        self.same(f"{name} census", self.text("#census"), start.say("census", "--cuts", "16", *start.expected))
        self.same(f"{name} outcome", self.text("#outcome"), start.say("replay", *schedule))
        self.same(f"{name} boots", self.browser.say("document.getElementById('boots').children.length"), len(cuts) + 1)
        for index in range(len(cuts) + 1):
            self.compare_boot(f"{name} power-on {index + 1}", start, cuts, index)
        self.compare_end(name, start, cuts)
        self.same(f"{name} has names for what has the focus", self.browser.nameless(), [])

    def compare_boot(self, name, start, cuts, index):
        card = f"#boots > :nth-child({index + 1})"
        said = start.outcome(cuts[:index])
        many = "" if said["ops"] == "1" else "s"
        self.same(f"{name} heading", self.text(card + " h2 span"), f"Power-on {index + 1}: {said['type']}, {int(said['ops']):,} operation{many}")
        if index < len(cuts):
            trace = start.say("trace", "--schedule", text_of(cuts), "--from", str(cuts[index]), "--to", str(cuts[index])).splitlines()
            cuts_before = [line[len("cut before "):] for line in trace if line.startswith("cut before ")]
            self.same(f"{name} operation", self.text(card + " .line code"), cuts_before[index])
            self.same(f"{name} slider says", self.browser.say(f"document.querySelector('{card} input').getAttribute('aria-valuetext')"), f"before {cuts_before[index]}")
        if int(said["ops"]):
            self.compare_map(name, start, cuts, index)
        most = max(start.numbers[4:])
        for place, words in enumerate(start.sectors(cuts[:index + 1], end=index == len(cuts))):
            labels = self.browser.say(f"[...document.querySelectorAll('{card} .sectors')[{place}].querySelectorAll('.piece')].map(it => "
                                      f"[it.textContent, it.className.replace(/ (half|tiny)/g, ''), Math.round(parseFloat(it.style.width) * {most} / 100)])")
            self.same(f"{name} slot {place}", words_of(labels), words)

    def compare_end(self, name, start, cuts):
        table = self.browser.say("[...document.querySelectorAll('#trailers tbody tr')].map(row => [...row.children].map(it => it.textContent))")
        lines = [f"{slot} " + " ".join(f"{row[0]}={row[column]}" for row in table) for column, slot in ((1, "primary"), (2, "secondary"))]
        printed = start.say_of_flash("type", cuts, "--profile", start.profile).splitlines()
        self.same(f"{name} trailers", lines, printed[:2])
        begins = "The boot goes on with the swap that was cut." if printed[2] == "resume yes" else f"The boot begins by the table of swap types: {printed[3][6:]}."
        self.same(f"{name} how it begins", self.text("#trailers p"), begins)
        self.browser.say("document.getElementById('inspect').textContent = ''; document.getElementById('inspect-box').open = true")
        self.browser.wait("document.getElementById('inspect').textContent !== ''")
        known = [] if start.kind == "flash" else ["--known-a", "b", "--known-b", "c"]
        self.same(f"{name} inspection", self.text("#inspect"), start.say_of_flash("inspect", cuts, *start.rules, *known))
        self.browser.say("document.getElementById('inspect-box').open = false")
        size, primary = start.numbers[0], start.numbers[4]
        shown = start.flash(cuts, end=not cuts)[(primary - 1) * size:primary * size]
        self.same(f"{name} bytes", self.text("#bytes"), bytes_text(shown, (primary - 1) * size))
        self.compare_commands(name, start, cuts)

    def compare_commands(self, name, start, cuts):
        source = [start.names.get(word, word) for word in start.source]
        schedule = ["--schedule", text_of(cuts)]
        in_slots = start.expected if start.kind == "flash" else []
        wanted = [["census", "--cuts", "16", *start.expected], ["trace", *schedule], ["sectors", *schedule, "--words", "all"],
                  ["replay", *schedule, "--at-cut", "cut.flash"], ["picture", *schedule, *in_slots]]
        shown = self.browser.say("[...document.querySelectorAll('#commands code')].map(it => it.textContent)")
        self.same(f"{name} commands", [shlex.split(line) for line in shown],
                  [["./mcsim", command, *start.layout, *source, *start.rules, *more] for command, *more in wanted])

    def compare_refusal(self, name, words, files, code, fields):
        _, _, err, _ = self.library.run(words, *files)
        lines = [line for line in err.decode().split("\n") if line]
        shown = self.browser.say("[...document.querySelectorAll('#refusal > :not(pre, .fields)')].map(it => it.textContent)")
        self.same(f"{name} refused", shown, lines)
        explanation = self.browser.say("document.getElementById('explanation')?.textContent ?? null")
        self.same(f"{name} explained", explanation, self.library.run(["explain", code])[1].decode() if code else None)
        marked = self.browser.say("[...document.querySelectorAll('[aria-invalid=true][aria-describedby=refusal]')].map(it => it.id)")
        self.same(f"{name} marks its fields", marked, fields)
        self.same(f"{name} leads to its fields", self.browser.say("document.querySelectorAll('#refusal .fields button').length"), len(fields))
        old = "(it => !it.hidden && it.inert && it.classList.contains('old'))"
        self.same(f"{name} leaves what was shown, as old", self.browser.say(f"['shown', 'verdict'].map(id => {old}(document.getElementById(id)))"), [True, True])
        self.same(f"{name} says that it is old", self.browser.say("!document.getElementById('old-note').hidden") and self.text("#verdict .of-last"), "Of the last question:")
        self.same(f"{name} has names for what has the focus", self.browser.nameless(), [])
        if code:
            self.same(f"{name} is {code}", lines[0].split()[1], code)

    def compare_map(self, name, start, cuts, index):
        """The map of a power-on, operation by operation and sector by sector, and what it says to who does not see it."""
        said, span = start.outcome(cuts[:index]), re.findall(r"\d+", self.text(f"#boots > :nth-child({index + 1}) .span").replace(",", ""))
        first, last = map(int, span or (0, int(said["ops"]) - 1))
        frames, can_be_cut = start.frames(cuts[:index], first, last), index < 16
        drawn = DrawnMap(self.browser.say(f"{READ}(document.querySelectorAll('.map')[{index}])"), frames, start.numbers[4:])
        cells = len(frames) * (sum(start.numbers[4:]) + 3)
        self.same(f"{name} map of {len(frames)} operations", drawn.differences(can_be_cut)[:20], [], cells)
        many = {sign: f"{sum(frame['ends'] == sign for frame in frames):,}" for sign in ("right", "wrong", "no-boot")}
        where = f" before operations {first:,} to {last:,}" if span else ""
        ends = f" Of the cuts{where}, {many['right']} end right, {many['wrong']} wrong, {many['no-boot']} with no boot." if can_be_cut else ""
        label = f"Map of power-on {index + 1}: {said['type']}, {int(said['ops']):,} operation{'' if said['ops'] == '1' else 's'}."
        self.same(f"{name} map in words", self.browser.say(f"document.querySelectorAll('.map')[{index}].getAttribute('aria-label')"), label + ends)

    def photograph(self, name):
        for view, (wide, dark) in VIEWS.items() if self.out else ():
            self.browser.size(wide, 1000, dark)
            high = self.browser.say(DRAWN.replace("done()", "done(document.documentElement.scrollHeight)"))
            self.same(f"{name} {view} is not too wide", self.browser.say("document.documentElement.scrollWidth"), wide)
            self.browser.size(wide, min(high, 6000), dark)
            self.browser.say(DRAWN)
            self.browser.photograph(self.out / f"{name}-{view}.png")
        self.browser.size(1400, 1000)
        self.browser.say(DRAWN)
