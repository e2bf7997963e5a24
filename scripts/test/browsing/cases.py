"""The cases of the page: each opens it for a start, does what somebody does there, and compares what is shown."""
import base64
import hashlib
import importlib.machinery
import json
import pathlib
import re
import time
import urllib.parse

from browsing.browser import PATIENCE
from browsing.shown import PHONE
from browsing.starts import BOARD, FIELDS, FINE, NAMED, SMALL, Start, bytes_text, image_of, text_of
from common import ROOT

SLIDES = 20
# What the text of a kind of swap says of the image that is to run at the end.
RUNS_AT_THE_END = re.compile(r"\b([ab]) (?:is tried once|is to stay|comes back|runs on)\b")
WHOLE_BOUND = "Every sequence of at most 16 power cuts"


def images():
    return [image_of(1, 400, 1), image_of(2, 300, 2)]


def small(page):
    start = Start(page.library, SMALL, images())
    page.case("small", start, [9, 4])
    hover(page, start, [9, 4], 0, 12)
    skip(page, start, [9, 12])
    stop(page, start)
    hurry(page, start)
    keys(page, start)
    save(page, start)
    many_cuts(page, start)
    phone(page)
    drop(page)


def hover(page, start, cuts, index, number):
    """What the map says of an operation under the pointer, and a click that cuts there."""
    count = int(start.outcome(cuts[:index])["ops"])
    page.browser.say(f"document.querySelectorAll('.map')[{index}].scrollIntoView()")
    box = page.browser.say(f"(box => [box.left, box.top, box.width])(document.querySelectorAll('.map')[{index}].getBoundingClientRect())")
    x, y = box[0] + 74 + (box[2] - 74) * (number + 0.5) / count, box[1] + 50
    page.browser.move_to(x, y)
    upto = [*cuts[:index], number]
    row = start.say("explore", "--cuts", str(index + 1), "--after", text_of([*upto[:-1], number - 1]), "--limit", "1").splitlines()[0]
    operation = [line for line in start.say("trace", "--schedule", text_of(upto), "--from", str(number), "--to", str(number)).splitlines()
                 if line.startswith("cut before ")][-1]
    page.same("small under the pointer", page.text("#tip"), f"{operation[11:]}\na cut before it: {row.split(' ', 1)[1]}")
    page.browser.click(x, y)
    page.await_done(text_of(upto))
    page.compare("small after a click", start, upto)
    page.same("small says the same without a pointer", page.text(f"#boots > :nth-child({index + 1}) .after"), f"A cut here: {row.split(' ', 1)[1]}")
    focus(page)


def focus(page):
    """What a tip says is there for the focus too, and goes with Escape."""
    page.browser.say("document.getElementById('tip').hidden = true; document.querySelector('#boots .sectors').focus({ focusVisible: true })")
    value = page.browser.say("document.querySelector('#boots .sectors').getAttribute('aria-valuetext')")
    page.same("small tip of a slot with the focus", page.text("#tip"), value)
    page.same("small tip is seen", page.browser.say("document.getElementById('tip').hidden"), False)
    page.browser.key("Escape", 27)
    page.same("small tip goes with Escape", page.browser.say("document.getElementById('tip').hidden"), True)


def skip(page, start, cuts):
    """The link that skips the form leaves what is asked."""
    page.set_field("bound", "5")
    page.await_done("-")
    page.go_to(start.link(cuts) + "&bound=5")
    page.await_done(text_of(cuts))
    page.browser.say("document.querySelector('.skip').click()")
    page.browser.wait("document.activeElement.id === 'result' && location.hash.includes('=')")
    page.same("small bound after the skip", page.browser.say("document.getElementById('bound').value"), "5")
    page.same("small schedule after the skip", page.browser.say("document.body.dataset.done"), text_of(cuts))
    page.same("small link after the skip", f"cuts={text_of(cuts)}" in page.browser.say("location.hash"), True)
    page.set_field("bound", "16")
    page.await_done("-")


def stop(page, start):
    """A count that is stopped, and made after all."""
    ask = """(bound => {{ bound.value = '{}'; bound.dispatchEvent(new Event('change', {{ bubbles: true }})); {}; }})(document.getElementById('bound'))"""
    page.browser.say(ask.format(3, "document.querySelector('#verdict button').click()"))
    page.same("small count stopped", page.text("#verdict h2"), "The sequences of power cuts are not counted.")
    page.browser.say("document.querySelector('#verdict button').click()")
    page.await_count()
    page.same("small count made after all", page.text("#census"), start.say("census", "--cuts", "3", *start.expected))
    page.set_field("bound", "16")
    page.await_count()
    page.await_done("-")


def hurry(page, start):
    """Keys that come faster than answers: none is lost."""
    page.browser.say("document.querySelector('#boots input').focus()")
    page.browser.key("Home", 36)
    page.await_done("0")
    for _ in range(8):
        page.browser.key("ArrowRight", 39)
    page.await_done("8")
    page.compare("small in a hurry", start, [8])


def keys(page, start):
    """The keyboard alone: the end of the slider, a sector by arrows, and the times of the layout."""
    page.browser.say("document.querySelector('#boots input').focus()")
    page.browser.key("End", 35)
    page.await_done("-")
    page.compare("small by End", start, [])
    page.browser.key("Home", 36)
    page.await_done("0")
    page.compare("small by Home", start, [0])
    page.browser.say("document.querySelectorAll('#boots .sectors')[1].focus()")
    for _ in range(2):
        page.browser.key("ArrowRight", 39)
    size = start.numbers[0]
    page.browser.wait("document.getElementById('bytes-title').textContent === 'Bytes of secondary sector 1, when power fails at power-on 1'")
    flash = start.flash([0])
    page.same("small bytes by keys", page.text("#bytes"), bytes_text(flash[(start.numbers[4] + 1) * size:(start.numbers[4] + 2) * size], size))
    page.set_field("erase-us", "85000")
    page.set_field("write-us", "x")
    page.browser.wait("document.getElementById('write-us').getAttribute('aria-invalid') === 'true'")
    page.same("small layout refuses a time", page.text("#layout").startswith("mcsim: --write-us takes a number"), True)
    page.set_field("write-us", "41")
    wanted = page.library.run(["layout", *start.layout, "--erase-us", "85000", "--write-us", "41"])[1].decode()
    page.browser.wait("document.getElementById('layout').textContent.includes('swap-us')")
    page.same("small layout", page.text("#layout"), wanted)
    page.same("small times are right", page.browser.say("document.querySelectorAll('[aria-invalid]').length"), 0)
    page.same("small times are in the link", "&erase-us=85000&write-us=41" in page.browser.say("location.hash"), True)


def save(page, start):
    """The flash as a file, and all power-ons as a page."""
    page.browser.send("Browser.setDownloadBehavior", behavior="allow", downloadPath=page.folder.name)
    page.browser.say("[...document.querySelectorAll('#boots button')].find(it => it.textContent === 'Save this flash').click()")
    saved(page, "flash-0.bin", start.flash([0]))
    page.browser.say("document.getElementById('save-page').click()")
    most = max(int(start.outcome(cuts)["ops"]) for cuts in ([], [0]))
    saved(page, "swap.html", start.say("picture", "--schedule", "0", "--from", "0", "--to", str(most - 1)).encode())
    page.browser.wait("document.getElementById('save-page').textContent === 'Save as a page'")


def saved(page, name, wanted):
    """A file that the browser saves."""
    path, end = pathlib.Path(page.folder.name) / name, time.monotonic() + PATIENCE
    while time.monotonic() < end and not (path.exists() and path.stat().st_size == len(wanted)):
        time.sleep(0.05)
    page.same(f"{name} saved", path.exists() and path.read_bytes(), wanted)


def many_cuts(page, start):
    """As many cuts as a schedule may have: the last power-on cannot be cut."""
    cuts = [0] * 16
    page.go_to(start.link(cuts))
    page.await_done(text_of(cuts))
    page.compare("small with 16 cuts", start, cuts)
    page.same("small last slider", page.browser.say("[...document.querySelectorAll('#boots input')].map(it => it.disabled)"), [False] * 16 + [True])
    page.browser.say("document.querySelectorAll('.line button')[0].click()")
    page.await_done("-")
    page.same("small let it run", page.browser.say("document.getElementById('boots').children.length"), 1)


def phone(page):
    """On a phone the verdict is seen first."""
    page.browser.size(*PHONE)
    bottom = page.browser.say("document.querySelector('#verdict h2').getBoundingClientRect().bottom + scrollY")
    page.same("small verdict is seen on a phone", bottom < PHONE[1], True)
    page.browser.size(1400, 1000)


def drop(page):
    """Two images that are dropped at once."""
    files = [image_of(3, 200, 3), image_of(4, 210, 4)]
    say = "".join(f"dropped.items.add(new File([Uint8Array.from({list(data)})], '{name} of us.bin'));" for name, data in zip("ab", files))
    page.browser.say(f"""(dropped => {{ {say} document.querySelector('[data-file=a]').dispatchEvent(
        new DragEvent('drop', {{ dataTransfer: dropped, bubbles: true, cancelable: true }})); }})(new DataTransfer())""")
    page.browser.wait("document.getElementById('outcome').textContent.includes('4.0.0+0')")
    page.await_done("-")
    page.compare("small dropped", Start(page.library, SMALL, files), [])


def kinds(page):
    """What the page says of each kind of swap, against what comes of it: which image is to run at the end, and which is on trial."""
    for kind in NAMED:
        start = Start(page.library, SMALL, images(), kind=kind)
        page.open(start)
        outcome, versions = start.outcome(), {"1.0.0+0": "a", "2.0.0+0": "b"}
        in_slots = {slot: outcome[slot].split()[0] for slot in ("primary", "secondary")}
        asks = page.browser.say("document.getElementById('kind').selectedOptions[0].textContent")
        page.same(f"{kind} runs at the end", RUNS_AT_THE_END.findall(asks), [versions[in_slots["primary"]]])
        page.same(f"{kind} is on trial", page.text("#is-a").startswith("image on trial,"), "table revert" in start.say_of_flash("type", []).splitlines())
        ends = " and ".join(f"{versions[version]} ({version}) in the {slot}" for slot, version in in_slots.items())
        page.same(f"{kind} in a sentence", page.text("#verdict h2").split(" ", 1)[1], f"{WHOLE_BOUND} ends with {ends}.")
        page.same(f"{kind} in the legend", page.text("#right-means"), "a cut here ends with " + re.sub(r" \([^)]*\)", "", ends))
        page.compare(kind, start, [])


def like(page):
    """Images that differ in their first and last sectors alone: what stays the same has the name of its place."""
    start = Start(page.library, FINE, [image_of(1, 400, None), image_of(2, 400, None)])
    page.case("like", start, [31])
    page.open(start)
    page.compare("like, whole", start, [])


def board(page):
    start = Start(page.library, BOARD, [image_of(1, 300000, 1), image_of(2, 300000, 2)])
    page.case("board", start, [701, 300])
    slide(page, "board", start, [701, 300], 0)


def unit(page):
    start = Start(page.library, BOARD, [image_of(1, 300000, 1), image_of(2, 300000, 2)], grain="unit")
    page.case("unit", start, [100000])
    slide(page, "unit", start, [100000], 0)
    for _ in range(4):
        page.browser.say("document.querySelector('.zoom button').click()")
        page.await_done(text_of([100000 + SLIDES]))
    page.compare("unit near", start, [100000 + SLIDES])
    page.photograph("unit-near")
    page.browser.say("document.querySelector('#boots input').focus()")
    page.browser.key("Home", 36)
    page.await_done("0")
    page.compare("unit, the view gone with the cut", start, [0])
    revert = Start(page.library, SMALL, images(), kind="revert", grain="unit")
    page.case("forgotten", revert, [4])


def slide(page, name, start, cuts, index):
    """Moves a slider by keys, and measures from the press to what is drawn; each step is compared."""
    slider = f"document.querySelectorAll('#boots input')[{index}]"
    page.browser.say(f"{slider}.focus()")
    page.browser.say("""window.slides = []; window.pressed = 0;
        addEventListener('keydown', () => (window.pressed = performance.now()), true);
        new MutationObserver(() => document.body.dataset.shown &&
            requestAnimationFrame(() => requestAnimationFrame(() => window.slides.push(performance.now() - window.pressed))))
            .observe(document.body, { attributes: true, attributeFilter: ['data-shown'] }); 0""")
    for step in range(1, SLIDES + 1):
        now = [*cuts[:index], cuts[index] + step]
        page.browser.key("ArrowRight", 39)
        page.browser.wait(f"document.body.dataset.shown === '{text_of(now)}' && window.slides.length === {step}")
    page.await_done(text_of(now))
    times = sorted(page.browser.say("window.slides"))
    print(f"{name}: {SLIDES} slides, from key to drawn: median {times[len(times) // 2]:.0f} ms, longest {times[-1]:.0f} ms", flush=True)
    page.compare(f"{name} after slides", start, now)


def dump(page):
    start = Start(page.library, SMALL, images())
    flash = bytearray(start.flash([9]))
    flash[4 * 256 + 100] ^= 1
    expected = ("--expect-primary", "2.0.0", "--expect-secondary", "1.0.0")
    bad = Start(page.library, SMALL, [bytes(flash)], kind="flash", expected=expected)
    page.case("dump", bad, [3])
    shortest = re.search(r"^shortest-not-boot (\S+)$", bad.say("census", "--cuts", "16", *bad.expected), re.M)[1]
    page.same("dump has a shortest that does not boot", page.text("#shortest"), "no cut at all" if shortest == "-" else shortest)
    page.browser.say("document.getElementById('shortest').click()")
    page.await_done(shortest)
    page.compare("dump at the shortest that does not boot", bad, [] if shortest == "-" else [int(cut) for cut in shortest.split(".")])
    page.photograph("dump-shortest")
    judged = [("bricked", bytes(flash), expected, "No sequence of at most 16 power cuts boots: the primary holds no valid image."),
              ("good", start.flash([9]), expected, f"{WHOLE_BOUND} ends with 2.0.0 in the primary and 1.0.0 in the secondary."),
              ("other", start.flash([9]), ("--expect-secondary", "none"),
               "All sequences of at most 16 power cuts boot, but none ends with no valid image in the secondary."),
              ("free", start.flash([9]), (), f"{WHOLE_BOUND} boots.")]
    for name, data, asked, sentence in judged:
        case = Start(page.library, SMALL, [data], kind="flash", expected=asked)
        page.open(case)
        page.same(f"dump {name} in a sentence", page.text("#verdict h2").split(" ", 1)[1], sentence)
        page.compare(f"dump {name}", case, [])


def refusals(page):
    start = Start(page.library, SMALL, images())
    page.open(start)
    replay = ["--verbose", "replay"]
    for name, value, code, marked in (("sector", "300", "E31", ["sector"]), ("unit", "16", "E30", ["unit"]), ("primary", "9", "E33", ["primary", "secondary"]),
                                      ("chunk", "100", "E32", ["chunk"]), ("sector", "-5", None, ["sector"])):
        before = page.browser.say(f"document.getElementById('{name}').value")
        page.set_field(name, value)
        page.browser.wait("document.body.dataset.done === 'refused'")
        numbers = [value if field == name else number for field, number in zip(FIELDS, start.numbers)]
        layout = [f"--{field}={number}" for field, number in zip(FIELDS, numbers)]
        page.compare_refusal(f"{name} {value}", [*replay, *layout, *start.source, *start.rules, "--schedule", "-"], start.files, code, marked)
        if code == "E33":
            page.photograph("refused")
        page.set_field(name, before)
        page.await_done("-")
    for name, data, code in (("torn", image_of(2, 300, 2)[:-1], "E8"), ("large", image_of(2, 700, 2), "E50")):
        page.browser.choose_file("#file-b", page.file(f"{name}.bin", data))
        page.browser.wait("document.body.dataset.done === 'refused'")
        page.compare_refusal(name, [*replay, *start.layout, *start.source, *start.rules, "--schedule", "-"], [start.files[0], data], code, ["file-b"])
        page.browser.say("document.querySelector('#refusal .fields button').click()")
        page.same(f"{name} is named, and the way to its field", (page.text("#refusal .fields button"), page.browser.say("document.activeElement.id")),
                  (f"b, a file: {name}.bin", "file-b"))
        page.browser.choose_file("#file-b", page.file("b of us.bin", start.files[1]))
        page.await_done("-")
    page.compare("after refusals", start, [])
    page.set_field("bound", "99")
    page.browser.wait("document.getElementById('bound').getAttribute('aria-invalid') === 'true'")
    page.await_shown_alone("-")
    page.same("a bound that is refused stays so beside what is shown", page.text("#refusal:not([hidden]) h2"), "mcsim: --cuts takes a number from 0 to 16")
    page.same("and has no verdict", page.browser.say("document.getElementById('verdict').hidden"), True)
    page.set_field("bound", "16")
    page.await_done("-")
    page.await_count()
    page.go_to(start.link([99]))
    page.await_done("refused")
    page.same("a cut that cannot occur", page.text("#refusal h2"), "mcsim: E53 CannotOccur at 0")
    page.browser.wait("!document.getElementById('verdict').inert && !!document.getElementById('census')")
    page.same("the count is of this question", page.text("#census"), start.say("census", "--cuts", "16", *start.expected))
    page.browser.say("[...document.querySelectorAll('#refusal button')].at(-1).click()")
    page.await_done("-")
    page.compare("without cuts", start, [])
    page.same("no field is marked", page.browser.say("document.querySelectorAll('[aria-invalid]').length"), 0)
    page.same("nothing is old", page.browser.say("document.querySelectorAll('.old').length"), 0)
    page.go_to(start.link() + "&source=life&expect-primary=2.x&script=boot%0Abot")
    page.await_done("refused")
    page.same("a script's line", page.text("#refusal h2"), "mcsim: E78 EventSyntax, event 2, line 2")
    page.same("a script is marked", page.browser.say("[...document.querySelectorAll('[aria-invalid]')].map(it => it.id)"), ["script"])
    page.set_field("script", "boot")
    page.await_done("refused")
    page.same("an expectation is named", page.text("#refusal .fields button"), "expected in the primary")
    page.same("the legend is still of what is shown", page.text("#right-means"), "a cut here ends with b in the primary and a in the secondary")
    page.same("an expectation is marked", page.browser.say("[...document.querySelectorAll('[aria-invalid]')].map(it => it.id)"), ["expect-primary"])
    page.photograph("refused-expectation")


def made_start(page, numbers, kind="test"):
    """The start of the images that the page makes: the library makes the same of the page's payloads."""
    sizes = dict(re.findall(r"[#&]([ab])=made\.(\d+)", page.browser.say("location.hash")))
    images, module = [], "./made.js" if page.server else "made.js"
    for place, version in (("a", "1.0.0"), ("b", "2.0.0")):
        payload = page.browser.say(f"import('{module}').then(it => [...it.payload_of('{place}', {sizes[place]})])")
        page.same(f"the payload of {place} has no zeros", (len(payload), min(payload) > 0), (int(sizes[place]), True))
        status, _, _, image = page.library.run(["create", "--version", version, "--header-size", "32", "--pad-header", "a", "out"], bytes(payload))
        page.same(f"{place} is made", status, 0)
        images.append(image)
    start = Start(page.library, numbers, images, kind=kind)
    start.names = {"a": "a.img", "b": "b.img"}
    return start


def links(page):
    """A link is the whole question: images that are made, files by their SHA-256, the history, and a reload."""
    page.visit()
    page.await_done("-")
    start = made_start(page, SMALL)
    page.compare("made", start, [])
    first = page.browser.say("location.hash")
    page.set_field("board", "3")
    page.await_shown("-")
    stm = made_start(page, (2048, 8, 256, 1024, 192, 192))
    page.same("made for a board", page.text("#census"), stm.say("census", "--cuts", "16", "--all-right"))
    page.browser.say("history.back()")
    page.await_done("-")
    page.same("the question before", page.browser.say("location.hash"), first)
    page.compare("made, by the back button", start, [])
    page.go_to(first + "&cuts=9.4")
    page.await_done("9.4")
    page.compare("made, cut", start, [9, 4])
    page.visit(first + "&cuts=99")
    page.await_done("refused")
    page.browser.wait("!document.getElementById('verdict').hidden && !!document.getElementById('census')")
    page.same("a first link whose cut cannot occur has a count", page.text("#census"), start.say("census", "--cuts", "16", *start.expected))
    page.visit(first)
    page.await_done("-")
    page.go_to(first + "&kind=tset&cuts=9.x")
    page.await_done("wanted")
    page.same("a link that cannot be read", page.text("#verdict h2").split(".")[0], "This link cannot be read: kind, cuts")
    files(page)
    for place, text in (("a", "x"), ("b", "0"), ("b", "16777217")):
        page.visit(first)
        page.await_done("-")
        page.set_field(f"payload-{place}", text)
        page.await_done("refused")
        page.same(f"{text} is no payload", page.text("#refusal h2"), f"The payload of {place} wants a number of bytes from 1 to 16,777,216, not {text}.")
    page.set_field("payload-b", "441")
    page.await_done("refused")
    page.same("what does not fit is the program's to say", page.text("#refusal h2"), "mcsim: E50 DoesNotFit")


def files(page):
    """Files of a link: kept by the browser, missing, and another one."""
    start = Start(page.library, SMALL, images())
    page.open(start)
    link, digest = page.browser.say("location.hash"), hashlib.sha256(start.files[1]).hexdigest()
    page.same("a link has a file's name, size and SHA-256", f"&b=file.300.{digest}.b+of+us.bin" in link, True)
    page.same("a link has no port and no token", page.browser.say("location.pathname.split('/')[1]") in link, False)
    page.browser.send("Page.reload")
    page.browser.wait("document.getElementById('name-b')?.textContent === 'b of us.bin, 300 bytes'")
    page.await_done("-")
    page.compare("after a reload", start, [])
    page.go_to(link.replace(digest, "0" * 64))
    page.await_done("wanted")
    missing = "The link asks for b of us.bin (300 bytes, SHA-256 000000000000…) as b, and this browser does not have it: choose it."
    page.same("a missing file is named", page.text("#verdict h2"), missing)
    page.same("and at its field", page.text("#note-b"), missing)
    page.browser.choose_file("#file-b", page.file("b of us.bin", start.files[1]))
    page.await_done("-")
    page.await_count()
    page.same("another file is asked about, as such", page.text("#census"), start.say("census", "--cuts", "16", *start.expected))
    page.same("another file is said", page.text("#note-b").startswith("This is not the file of the link: that is b of us.bin, 300 bytes, SHA-256 0000"), True)
    page.visit(link)
    page.await_done("-")
    page.same("the link's own file", page.browser.say("document.getElementById('note-b').hidden"), True)
    page.compare("by the link's own file", start, [])


def scenes(page):
    """Each scene of the menu, by a click: it comes to what the library says of the same question."""
    page.visit()
    page.await_done("-")
    count = page.browser.say("document.querySelectorAll('#scenes a').length")
    marks = []
    for number in range(count):
        page.browser.say("document.querySelector('#scenes summary').click()")
        title = page.browser.say(f"document.querySelectorAll('#scenes a')[{number}].textContent")
        link = page.browser.say(f"document.querySelectorAll('#scenes a')[{number}].hash")
        page.browser.say(f"document.body.dataset.shown = ''; document.querySelectorAll('#scenes a')[{number}].click()")
        page.await_shown("-")
        said = asked_by(link)
        start = scene_start(page, said)
        page.same(f"scene {title}", page.text("#census"), start.say("census", "--cuts", "16", *start.expected))
        page.same(f"scene {title} outcome", page.text("#outcome"), start.say("replay", "--schedule", "-"))
        marks.append(page.text("#verdict h2 .swatch"))
        page.same(f"scene {title} leaves its link", asked_by(page.browser.say("location.hash")), asked_by(link))
        page.same(f"scene {title} has names for what has the focus", page.browser.nameless(), [])
        page.photograph(f"scene-{number}")
    page.same("some scenes are right, others are not", set(marks), {"✓", "✗"})


def asked_by(link):
    """What a link says; a test swap is what is asked where it says nothing of a kind."""
    return {"kind": "test", **dict(urllib.parse.parse_qsl(link[1:]))}


def scene_start(page, said):
    """The start of a scene's link; the flash at the end of a life is the library's."""
    numbers, rules = [int(said[field]) for field in FIELDS], {"grain": said.get("grain", "call"), "profile": said.get("profile", "1")}
    start = made_start(page, numbers, said["kind"])
    if said.get("source") != "life":
        return Start(page.library, numbers, start.files, kind=start.kind, **rules)
    script = said["script"].encode()
    status, out, _, flash = page.library.run(["life", *start.layout, "--image", "a", "--out", "out", "c"], *start.files, script)
    page.same("a life as the library tells it", (0, page.text("#lived")), (status, out.decode()))
    expected = [word for name in ("expect-primary", "expect-secondary") if name in said for word in (f"--{name}", said[name])]
    return Start(page.library, numbers, [flash], kind="flash", expected=expected)


def tears(page):
    """Power lost within an operation: not asked at first; then a second line of verdict, and the cases of the chosen operation."""
    start = Start(page.library, SMALL, images(), kind="perm")
    page.open(start)
    hidden = page.browser.say("[document.getElementById('torn'), ...document.querySelectorAll('.of-tears')].map(it => it.hidden)")
    page.same("tears are not asked", hidden, [True, True, True])
    page.same("limits without tears", page.text("#limits"), "Power fails between operations, never within one.")
    verdict = page.text("#verdict h2")
    for how in ("gentle", "rough"):
        page.set_field("tears", how)
        page.await_done("-")
        page.await_count()
        operations, cases, *rows = start.say("tears", "--erase", how, *start.expected).splitlines()
        rows = [row.split() for row in rows]
        busy = sum(row[2] == "boot" and row[-1] == "busy" for row in rows)
        page.same(f"{how} has no case without a boot, and one that is busy", ({row[2] for row in rows}, busy > 0), ({"boot"}, True))
        page.same(f"{how} second line", page.text("#torn h2"), f"⚠ Power lost within an operation of the first boot: in {busy} of {cases.split()[1]} "
                  "cases the device boots, but the next download can brick it, unlike after a cut there.")
        page.same(f"{how} first line", page.text("#verdict h2"), verdict)
        page.same(f"{how} link", f"tears={how}" in page.browser.say("location.hash"), True)
        torn_operations(page, start, how, int(operations.split()[1]), rows)
        page.photograph(f"tears-{how}")
    page.set_field("tears", "")
    page.await_done("-")
    page.same("tears are no longer asked", page.browser.say("document.getElementById('torn').hidden"), True)
    page.compare("after tears", start, [])


def torn_operations(page, start, how, count, rows):
    """The cases of each operation that the program lists, and of one that it does not."""
    for number in sorted({int(row[0]) for row in rows} | {count - 1}):
        page.go_to(start.link([number]) + f"&tears={how}")
        page.await_done(str(number))
        of_number = [row for row in rows if int(row[0]) == number]
        shown = page.browser.say("[...document.querySelectorAll('#boots > :first-child .cases li')].map(it => it.textContent)")
        page.same(f"{how} {number} has its cases and the rest", len(shown), len(of_number) + 1)
        page.same(f"{how} {number} all cases", sorted(line.split(": ")[1] for line in shown[:-1]), sorted(" ".join(row[1:]) for row in of_number))
        page.same(f"{how} {number} the worst first", [line[0] for line in shown], sorted((line[0] for line in shown), key="✗⚠≠✓".index))
        page.same(f"{how} {number} is busy", [line.split(" ", 2)[1:] for line in shown if "next download" in line.split(":")[0]] != [],
                  any(row[-1] == "busy" for row in of_number))
    page.go_to(start.link() + f"&tears={how}")
    page.await_done("-")
    numbers = sorted({int(row[0]) for row in rows})
    ways = page.browser.say("[...document.querySelectorAll('#boots > :first-child .row.after button')].map(it => Number(it.textContent.slice(2)))")
    page.same(f"{how} has a way to each", ways, numbers)
    page.browser.say("(it => { it.focus(); it.click(); })(document.querySelector('#boots .row.after button'))")
    page.await_done(str(numbers[0]))
    page.same(f"{how} keeps the focus", page.browser.say("document.activeElement.getAttribute('aria-label').startsWith('Choose operation')"), True)
    page.go_to(start.link() + f"&tears={how}")
    page.await_done("-")


def lines(page):
    """The library in a file alone: the command lines by which the program, C and Python are compared, with status, output and refusal."""
    start = Start(page.library, SMALL, images())
    page.open(start)
    bindings = importlib.machinery.SourceFileLoader("bindings", str(ROOT / "scripts/test/bindings")).load_module()
    sources = [["--kind", kind, "--image-a", "a", "--image-b", "b"] for kind in bindings.KINDS]
    script = bindings.SCRIPT.encode()
    answers(page, "of images", [*start.files, script], bindings.command_lines() + bindings.boot_lines(sources))
    answers(page, "of a flash", [start.flash([9]), start.files[1], script], bindings.boot_lines([["--flash", "a"]]))


def answers(page, name, files, asked):
    kept = [page.browser.say(f"import('server.js').then(it => it.keep(Uint8Array.from(atob('{base64.b64encode(data).decode()}'), "
                             "letter => letter.charCodeAt(0))))") for data in files]
    for words in asked:
        question = json.dumps({"words": words, "files": kept})
        found = page.browser.say(f"import('server.js').then(it => it.ask('run', {question}))")
        status, out, err, _ = page.library.run(words, *files)
        page.same(f"{name} {' '.join(words)}", found, {"status": status, "out": out.decode(), "err": err.decode()})
    print(f"{len(asked)} command lines {name}", flush=True)
