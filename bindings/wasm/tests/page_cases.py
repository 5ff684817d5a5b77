"""What a user may choose on the page: in each order, each choice during an earlier one, at the limits, and in odd forms. Each case has a page of
its own, before which stands page_probe.js."""

from __future__ import annotations

import re
import shutil
import tempfile
import time
from pathlib import Path
from typing import Any, Callable, Dict, List

from pages import ROOT, Browser, address_of, choose, drop, error, fill, opened, same, served, text, wait
import chunker
import range_proof as r
import xet_model as m

SMALL = b"a chunk"
LINES = [((k, 1, 2, 4 + k % 3), 100 + k) for k in range(12)]
#: What stands on each tab of a choice, all at one moment; last the message that is shown, if one is.
MESSAGE = """
    const get = (id) => document.getElementById(id);
    const message = get("error").hidden ? null : get("error").textContent;
"""
SHOWN = {
    "files": f"""{MESSAGE}
        const rows = [...get("named").rows, ...get("hashed").rows].map((row) => [...row.cells].map((it) => it.textContent));
        const roots = get("files-roots").hidden ? null : ["files-count", "files-root", "files-hash"].map((id) => get(id).textContent);
        const names = ["chunks-of", "pairs-of"].map((id) => [...get(id).files].map((it) => it.name));
        return [rows, roots, get("progress-said").textContent, names, message];
    """,
    "parts": f"""{MESSAGE}
        const texts = ["part-file-hash", "part-file-size", "sent", "part-verdict", "part-bytes"].map((id) => get(id).textContent);
        const names = [...get("part-of").files].map((it) => it.name);
        return [...texts, get("path").childElementCount > 0, get("path").hasAttribute("aria-label"), names, message];
    """,
}
EMPTY_PART = ["", "", "", "", "", False, False]


def probed(folder: Path) -> str:
    """The address of a copy of the page with the probe."""
    shutil.copytree(ROOT / "web", folder / "web")
    shutil.copytree(ROOT / "bindings/wasm/yurewha", folder / "bindings/wasm/yurewha")
    shutil.copy(Path(__file__).with_name("page_probe.js"), folder / "web")
    page = folder / "web/index.html"
    main = '<script type="module" src="main.js"></script>'
    same(page.read_text().count(main), 1)
    page.write_text(page.read_text().replace(main, f'<script type="module" src="page_probe.js"></script>{main}'))
    return address_of(served(folder))


def state(browser: Browser, tab: str) -> List[Any]:
    return browser.run(SHOWN[tab])


def settled(browser: Browser, tab: str, holds: Callable[[List[Any]], bool]) -> List[Any]:
    """What is shown on a tab, as soon as it is as it has to be."""
    for _ in range(600):
        if holds(found := state(browser, tab)):
            return found
        time.sleep(0.1)
    raise AssertionError(f"never as it has to be: {found!r}")


def lines_of(pairs: List[m.Node], end: str = "\n") -> str:
    return "".join(f"{m.to_hex(hash_)} {size}{end}" for hash_, size in pairs)


def file(folder: Path, name: str, data: bytes = b"", length: int = 0) -> str:
    """The path of a file with some data, or of a sparse one of a length."""
    (folder / name).write_bytes(data)
    if length:
        with (folder / name).open("r+b") as it:
            it.truncate(length)
    return str(folder / name)


def each_control_is_used_by_a_test(browser: Browser, folder: Path) -> None:
    ids = browser.run("return [...document.querySelectorAll('main :is(input, select, textarea, form, button)')].map((it) => it.id).filter(Boolean)")
    tests = "".join(Path(__file__).with_name(name).read_text() for name in ("page_test.py", "page_cases.py", "pages.py"))
    same([it for it in ids if not it.startswith("between-") and not re.search(rf"[\"'#]{it}\b", tests)], [])


def a_list_can_be_merged_at_once(browser: Browser, folder: Path) -> None:
    ranges = "return [document.querySelectorAll('.range').length, document.querySelectorAll('button.merge').length]"
    same([browser.run(ranges), text(browser, "said")], [[4, 3], "64 chunks in 4 ranges."])
    figures = "return [...document.querySelectorAll('.range > .figures')].map((it) => it.textContent)"
    for position, place in ((16, 0), (48, 1), (32, 0)):
        both = sum(int(it.split()[1]) for it in browser.run(figures)[place : place + 2])
        browser.click(f"#between-{position}")
        levels = browser.run("return document.querySelectorAll('.range')[arguments[0]].querySelectorAll('.levels > li').length", place)
        merged = browser.run(figures)[place]
        same(f"at most {both // 2 + levels}: half of the {both} nodes that both kept" in merged, True, merged)
    same(text(browser, "verdict"), "The same.")
    history = "return [...document.querySelectorAll('#no-history:not([hidden]), #history .bracketing')].map((it) => it.textContent)"
    same(browser.run(history), ["((1–16 17–32) (33–48 49–64))"])
    ids = "return [...document.querySelectorAll('button.merge')].map((it) => it.id)"
    for position in (10, 32, 10):
        browser.click(f"#between-{position}")
    browser.click("#cut-again")
    same(browser.run(ids), ["between-10", "between-32"], "what was cut last")
    browser.run("const drawn = [63, 9, 1, 10, 9]; window.Math.random = () => (drawn.pop() - 0.5) / 63")
    browser.click("#cut-at-random")
    same([browser.run(ids), text(browser, "said")], [[f"between-{position}" for position in (1, 9, 10, 63)], "Cut into 5 ranges."])
    for count, wanted in ((1, 1), (2, 2), (3, 3), (4, 4), (5, 4), (500, 4)):
        fill(browser, {"count": count})
        browser.click("#draw button")
        same([*browser.run(ranges), text(browser, "root-merged")], [wanted, wanted - 1, ""], f"{count} chunks")


def ranges_show_the_nodes_that_they_keep(browser: Browser, folder: Path) -> None:
    fill(browser, {"count": 500})
    browser.click("#draw button")
    script = """
        const hashes = (level) => [...level.querySelectorAll(".node:not(.hidden)")].map((node) => node.title.split("\\n")[1]);
        return [...document.querySelectorAll(".range")].map((card) => [...card.querySelectorAll(".levels > li")].map(hashes).reverse());
    """
    nodes, ends = [(m.random_from_seed(122 + k), 100 + 977 * k % 9901) for k in range(500)], [0, 125, 250, 375, 500]
    for position in (250, 125, 375, None):
        kept = (m.canon(nodes[start:end], start == 0, end == 500).levels for start, end in zip(ends, ends[1:]))
        same(browser.run(script), [[[m.to_hex(hash_) for hash_, _ in left + right] for left, right in levels] for levels in kept], f"{ends}")
        if position:
            browser.click(f"#between-{position}")
            ends.remove(position)


def lists_may_have_cr_lf(browser: Browser, folder: Path) -> None:
    wanted = m.to_hex(m.root(LINES))
    browser.click("summary")
    for end in ("\n", "\r\n"):
        for given in (lines_of(LINES, end), lines_of(LINES, end).rstrip(), lines_of(LINES, end) + end):
            fill(browser, {"pairs": given})
            # A textarea has its lines' ends as LF, so that a file brings the others.
            browser.click("#paste button")
            same([text(browser, "root-at-once"), error(browser)], [wanted, None])
            browser.click("#tab-files")
            browser.type("#pairs-of", file(folder, f"{time.monotonic_ns()}", given.encode()))
            settled(browser, "files", lambda it: bool(it[1]) and it[1][:2] == ["12", wanted])
            browser.click("#tab-ranges")


def cuts_may_be_at_both_ends(browser: Browser, folder: Path) -> None:
    browser.click("#tab-files")
    for cuts, sizes in (("10", [10, 20]), ("0 10", [10, 20]), ("10 30", [10, 20]), ("0, 10; 30", [10, 20]), ("0", [30]), ("30", [30]), ("0 30", [30])):
        fill(browser, {"cuts": cuts})
        drop(browser, "thirty", bytes(range(30)))
        found = settled(browser, "files", lambda it: it[2] == "Done.")
        ends = [sum(sizes[: k + 1]) for k in range(len(sizes))]
        chunks = [[f"thirty from {end - size}", str(size), m.to_hex(m.compute_data_hash(bytes(range(end - size, end))))] for size, end in zip(sizes, ends)]
        same(found[0], chunks, cuts)
    # Other cuts are taken of the same file, once they are typed.
    browser.run("const it = document.getElementById('cuts'); it.value = '7'; it.dispatchEvent(new Event('change'))")
    settled(browser, "files", lambda it: [row[1] for row in it[0]] == ["7", "23"] and it[2] == "Done.")
    browser.type("#chunks-of", "\n".join(file(folder, name, SMALL) for name in ("one", "two")))
    said = "The cuts are those of one file: choose one, or leave the cuts empty."
    same(settled(browser, "files", lambda it: it[-1] is not None)[0::4], [[], said])


def chunks_of(data: bytes) -> List[bytes]:
    ends = chunker.cuts(data)
    return [data[start:end] for start, end in zip([0, *ends], ends)]


def rows_of_files(datas: Dict[str, bytes]) -> List[List[str]]:
    """What the table of files says of each, and of the chunks that those above it have. Its last cell is a picture."""
    rows: List[List[str]] = []
    above: List[bytes] = []
    for name, data in datas.items():
        chunks = chunks_of(data)
        shared = [chunk for chunk in chunks if chunk in above]
        said = f"{len(shared)} chunk{'s'[: len(shared) != 1]} of {sum(map(len, shared))} bytes" if shared else "none"
        rows.append([name, str(len(data)), str(len(chunks)), m.to_hex(chunker.file_hash(data)), said, ""])
        above += chunks
    return rows


def versions_show_the_chunks_that_they_share(browser: Browser, folder: Path) -> None:
    browser.click("#tab-files")
    old = chunker.mixed(400_000)
    # Short chunks, of which there are so many that the cuts aren't drawn.
    short = bytes([0, 148, 143]) * 290_000
    new = old[:200_000] + b"inserted" + old[200_000:]
    datas = {"old": old, "new": new, "same": new, "long": old[-100_000:] + short}
    browser.type("#chunks-of", "\n".join(file(folder, name, data) for name, data in datas.items()))
    same(settled(browser, "files", lambda it: it[2] == "Done.")[0], rows_of_files(datas))
    strips = "return [...document.querySelectorAll('#named .strip')].map((it) => [it.ariaLabel, ...[...it.children].map((path) => path.getAttribute('d'))])"
    above: List[bytes] = []
    for data, (label, dark, cuts) in zip(datas.values(), browser.run(strips)):
        chunks = chunks_of(data)
        same(label, f"{len(chunks)} chunks, of which the files above have {sum(chunk in above for chunk in chunks)}")
        places = [300 * end / len(data) for end in chunker.cuts(data)[:-1]] if len(chunks) < 102 else []
        same([round(float(it), 6) for it in re.findall(r"M([\d.]+) 0v12", cuts)], [round(place, 6) for place in places])
        marks = b"".join(bytes([chunk in above]) * len(chunk) for chunk in chunks)
        bounds = [len(data) * x // 300 for x in range(301)]
        shares = [sum(marks[begin:end]) / max(end - begin, 1) for begin, end in zip(bounds, bounds[1:])]
        drawn = {int(x): float(height) / 12 for x, height in re.findall(r"M(\d+) 12v-([\d.e-]+)h1V12z", dark)}
        same([x for x in range(300) if abs(shares[x] - drawn.get(x, 0)) > 0.01], [])
        above += chunks


def files_are_cut_as_xet_does(browser: Browser, folder: Path) -> None:
    browser.click("#tab-files")
    datas = {"mixed": chunker.mixed(200_000), "zeros": bytes(131_073)}
    saying = """
        window.said = [];
        const [text, bar] = ["progress-said", "progress"].map((id) => document.getElementById(id));
        new MutationObserver(() => said.push([text.textContent, Number(bar.value.toFixed(9))])).observe(text, { childList: true });
    """
    browser.run(saying)
    browser.type("#chunks-of", "\n".join(file(folder, name, data) for name, data in datas.items()))
    same(settled(browser, "files", lambda it: it[2] == "Done.")[:2], [rows_of_files(datas), None])
    # The last chunk has one byte, of which nothing is said.
    total = sum(len(data) for data in datas.values())
    passed = [*chunker.cuts(datas["mixed"]), len(datas["mixed"]) + chunker.cuts(datas["zeros"])[0]]
    said = [["Working.", 0], *([f"{int(100 * (count / total))} %", round(count / total, 9)] for count in passed), ["Done.", 1]]
    same(browser.run("return window.said"), said)


def a_part_may_end_beyond_the_file(browser: Browser, folder: Path) -> None:
    browser.click("#tab-parts")
    browser.type("#part-of", file(folder, "part", bytes(3000)))
    # These bytes were asked for of a longer file.
    same(settled(browser, "parts", lambda it: it[1] == "3000 bytes in 6 chunks")[3], "Accepted: these are bytes 0 to 99 of a file of 3000 bytes.")
    same(browser.run("return ['from', 'to'].map((id) => document.getElementById(id).max)"), ["2999", "2999"])
    nodes = [(m.compute_data_hash(bytes(500)), 500)] * 6
    for first, last, shown in ((2999, 5000, (2999, 2999)), (0, 10**9, (0, 2999)), (1400, 1600, (1400, 1600)), (1400, 1640, (1400, 1640))):
        fill(browser, {"from": first, "to": last})
        choose(browser, "nothing")
        same(text(browser, "part-verdict"), f"Accepted: these are bytes {shown[0]} to {shown[1]} of a file of 3000 bytes.")
        count = shown[1] + 1 - shown[0]
        same(text(browser, "part-bytes"), "\0" * min(count, 240) + (f" and {count - 240} more" if count > 240 else ""))
        chunks = r.chunks_at(nodes, shown[0], shown[1] + 1)
        assert chunks
        words = browser.run("return document.getElementById('path').getAttribute('aria-label')")
        sides = [(str(len(left)), str(len(right))) for left, right in r.prove(nodes, *chunks).levels]
        same(browser.run("return document.querySelectorAll('#path line').length - document.querySelectorAll('#path g').length"), -1, "each but the root has a parent")
        same(re.findall(r"(\d+) on the left and (\d+) on the right", words), sides)
        choose(browser, "byte")
        same(text(browser, "part-verdict"), "Refused: 1 chunk of the data isn’t the file’s.")
        choose(browser, "node")
        same(text(browser, "part-verdict"), "Refused: the proof doesn’t lead to the hash of the file.")


def there_are_limits(browser: Browser, folder: Path) -> None:
    many = [((k, 1, 2, 5), 1) for k in range(501)]
    browser.click("summary")
    for count, said in ((500, None), (501, "The page shows at most 500 chunks.")):
        fill(browser, {"pairs": lines_of(many[:count])})
        browser.click("#paste button")
        same([error(browser), text(browser, "root-at-once")], [said, m.to_hex(m.root(many[:500]))])
    browser.click("#tab-files")
    browser.type("#pairs-of", file(folder, "long", length=256 * 2**20 + 1))
    settled(browser, "files", lambda it: it[-1] == "The file has more than 268435456 bytes.")
    # Space is read once, however much of it there is.
    browser.type("#pairs-of", file(folder, "spaces", b"x" + b" " * 10**6 + b"x"))
    settled(browser, "files", lambda it: (it[-1] or "").startswith("Line 1 is no pair"))
    browser.click("#tab-parts")
    browser.type("#part-of", file(folder, "longer", length=64 * 2**20 + 1))
    same(settled(browser, "parts", lambda it: it[-1] is not None)[-1], "The file has more than 67108864 bytes.")
    whole = "A chunk has a whole number of bytes, and at least one."
    table = (("1", 100_000, None), ("1", 100_001, "The page makes at most 100000 chunks of a file."), ("0", 9, whole), ("-5", 9, whole), ("", 9, whole), ("1.5", 9, whole))
    for k, (length, size, said) in enumerate(table):
        fill(browser, {"chunk-length": length})
        browser.type("#part-of", file(folder, f"of-{k}", length=size))
        found = settled(browser, "parts", lambda it: it[-1] == said and (said is not None or it[1] != ""))
        same(found[:7] == EMPTY_PART, said is not None, f"{length} {size}")
    for size, shown in ((1, "1 byte in 1 chunk"), (1001, "1001 bytes in 3 chunks")):
        fill(browser, {"made-bytes": size, "chunk-length": 500})
        browser.click("#make-file button")
        same([text(browser, "part-file-size"), error(browser)], [shown, None])


def choices_of(folder: Path) -> Dict[str, Dict[str, Callable[[Browser], None]]]:
    """The choices on each tab, those with `slow` in their name first come to something when they are let go."""
    paths = {
        "small": file(folder, "small", SMALL), "empty": file(folder, "empty"), "slow": file(folder, "slow", bytes(3000)),
        "too long": file(folder, "too-long", length=256 * 2**20 + 1), "pairs": file(folder, "pairs", lines_of(LINES).encode()),
        "slow pairs": file(folder, "slow-pairs", lines_of(LINES[:5]).encode()), "no pairs": file(folder, "no-pairs", b"no pair\n"),
    }

    def picked(css: str, name: str) -> Callable[[Browser], None]:
        def choice(browser: Browser) -> None:
            # Chromium adds what is typed to the files that are chosen.
            fill(browser, {css[1:]: ""})
            browser.type(css, paths[name])

        return choice

    return {
        "files": {
            "slow": picked("#chunks-of", "slow"), "slow pairs": picked("#pairs-of", "slow pairs"), "slow drop": lambda it: drop(it, "slow-drop", b"dropped"),
            "a file": picked("#chunks-of", "small"), "an empty file": picked("#chunks-of", "empty"), "pairs": picked("#pairs-of", "pairs"),
            "no pairs": picked("#pairs-of", "no pairs"), "a drop": lambda it: drop(it, "dropped", SMALL), "too long": picked("#pairs-of", "too long"),
        },
        "parts": {
            "slow": picked("#part-of", "slow"), "a file": picked("#part-of", "small"), "an empty file": picked("#part-of", "empty"),
            "too long": picked("#part-of", "too long"), "made": lambda it: it.click("#make-file button"),
        },
    }


#: How each choice ends alone: what tells it from the state before it.
ENDS: Dict[str, Dict[str, Callable[[List[Any]], bool]]] = {
    "files": {
        "a file": lambda it: it[2] == "Done." and it[0][0][0] == "small", "an empty file": lambda it: it[2] == "Done." and it[0][0][1] == "0",
        "pairs": lambda it: it[2] == "Done." and it[1][0] == "12" and it[0] == [], "no pairs": lambda it: it[2] == "" and "Line 1 is no pair" in (it[-1] or ""),
        "a drop": lambda it: it[2] == "Done." and it[0][0][0] == "dropped", "too long": lambda it: it[2] == "" and "268435456" in (it[-1] or ""),
    },
    "parts": {
        "a file": lambda it: it[1] == "7 bytes in 1 chunk", "an empty file": lambda it: it[1] == "0 bytes in 0 chunks",
        "too long": lambda it: "67108864" in (it[-1] or ""), "made": lambda it: it[1] == "50000 bytes in 100 chunks",
    },
}


def each_choice_ends_the_one_before(browser: Browser, folder: Path, tab: str) -> None:
    """Each choice after each other one, and during each slow one, shows what it shows alone."""
    url = browser.run("return location.href")
    choices, ends = choices_of(folder)[tab], ENDS[tab]

    def on_a_new_page() -> None:
        opened(browser, url)
        browser.click(f"#tab-{tab}")

    def chosen(name: str) -> None:
        # The page asks for other bytes if a file doesn't have these.
        fill(browser, {"from": 0, "to": 5})
        choices[name](browser)

    alone = {}
    for name, end in ends.items():
        on_a_new_page()
        chosen(name)
        alone[name] = settled(browser, tab, end)
    for before in choices:
        for name in ends:
            # A browser tells of no change if the same file is chosen again.
            if before == name and name not in ("made", "a drop"):
                continue
            is_slow = before.startswith("slow")
            if is_slow:
                on_a_new_page()
            chosen(before)
            if not is_slow:
                settled(browser, tab, lambda it: it == alone[before])
            chosen(name)
            settled(browser, tab, lambda it: it == alone[name])
            browser.run("document.dispatchEvent(new Event('let-go'))")
            if is_slow and tab == "parts":
                wait(browser, "document.documentElement.dataset.gone === '1'")
            same(state(browser, tab), alone[name], f"{name} after {before}")
            if tab == "files":
                same(browser.run("return document.documentElement.dataset.workers"), "1", f"workers for {name} after {before}")


def choices_of_files_end_earlier_ones(browser: Browser, folder: Path) -> None:
    each_choice_ends_the_one_before(browser, folder, "files")


def choices_of_parts_end_earlier_ones(browser: Browser, folder: Path) -> None:
    each_choice_ends_the_one_before(browser, folder, "parts")


def what_is_not_read_yet_shows_nothing(browser: Browser, folder: Path) -> None:
    browser.click("#tab-parts")
    choices_of(folder)["parts"]["slow"](browser)
    same(settled(browser, "parts", lambda it: it[:7] == EMPTY_PART)[-1], None)
    browser.click("#read-part button")
    same([error(browser), state(browser, "parts")[:7]], ["There is no file yet.", EMPTY_PART])
    browser.run("document.dispatchEvent(new Event('let-go'))")
    same(settled(browser, "parts", lambda it: it[1] == "3000 bytes in 6 chunks")[-1], None)
    browser.click("#tab-files")
    choices_of(folder)["files"]["slow"](browser)
    same(settled(browser, "files", lambda it: it[2] == "Working.")[:2], [[], None])


def what_is_not_chosen_shows_nothing(browser: Browser, folder: Path) -> None:
    """A browser tells of a choice of no file, too."""
    for tab, name, before in (("files", "chunks-of", "a file"), ("files", "pairs-of", "pairs"), ("parts", "part-of", "a file")):
        browser.click(f"#tab-{tab}")
        choices_of(folder)[tab][before](browser)
        settled(browser, tab, ENDS[tab][before])
        browser.run("const it = document.getElementById(arguments[0]); it.value = ''; it.dispatchEvent(new Event('change'))", name)
        same(state(browser, tab), [[], None, "", [[], []], None] if tab == "files" else [*EMPTY_PART, [], None], name)


def work_can_be_cancelled(browser: Browser, folder: Path) -> None:
    browser.click("#tab-files")
    for name in ("slow", "slow pairs", "slow drop"):
        choices_of(folder)["files"][name](browser)
        settled(browser, "files", lambda it: it[2] == "Working.")
        browser.click("#cancel")
        same(state(browser, "files"), [[], None, "", [[], []], None], name)
        same(browser.run("return document.documentElement.dataset.workers"), "0", name)
        # Other cuts are those of no file then.
        browser.run("document.getElementById('cuts').dispatchEvent(new Event('change'))")
        same(state(browser, "files")[2], "", name)
    browser.run("document.dispatchEvent(new Event('let-go'))")
    time.sleep(1)
    same(state(browser, "files"), [[], None, "", [[], []], None])


def what_is_dropped_stays_on_the_page(browser: Browser, folder: Path) -> None:
    """The browser doesn't open it, and what is no file ends nothing."""
    browser.click("#tab-files")
    drop(browser, "dropped", SMALL)
    found = settled(browser, "files", lambda it: it[2] == "Done.")
    script = """
        const given = { dataTransfer: new DataTransfer(), bubbles: true, cancelable: true };
        return document.getElementById("drop").dispatchEvent(new DragEvent(arguments[0], given));
    """
    over = "return document.getElementById('drop').classList.contains('over')"
    for kind, is_over in (("dragenter", True), ("dragover", True), ("dragleave", False), ("dragover", True), ("drop", False)):
        same([browser.run(script, kind), browser.run(over), state(browser, "files")], [False, is_over, found], kind)


def a_worker_that_cant_run_is_told(browser: Browser, folder: Path) -> None:
    browser.run("const Real = Worker; window.Worker = class extends Real { constructor() { super('no-such-file.js', { type: 'module' }); } }")
    browser.click("#tab-files")
    drop(browser, "dropped", SMALL)
    same(settled(browser, "files", lambda it: it[-1] is not None), [[], None, "", [[], []], "The worker can't run."])


def what_is_pressed_ends_what_plays(browser: Browser, folder: Path) -> None:
    browser.run("window.setTimeout = (step) => void (window.step = step); window.clearTimeout = () => (window.step = null)")
    browser.click("summary")
    fill(browser, {"pairs": lines_of(LINES)})
    playing = "return [Boolean(window.step), document.getElementById('play').textContent]"
    for css in ("#play", "#between-1", "#draw button", "#cut-at-random", "#cut-again", "#paste button"):
        browser.click("#play")
        same(browser.run(playing), [True, "Stop"], css)
        browser.click(css)
        same(browser.run(playing), [False, "Play a random bracketing"], css)


def another_root_is_told(browser: Browser, folder: Path) -> None:
    browser.run("document.documentElement.dataset.lies = ''")
    for position in (16, 32, 48):
        browser.click(f"#between-{position}")
    same([text(browser, "verdict"), browser.run("return document.getElementById('verdict').className")], ["Another root: this build is faulty.", "other"])


def arrows_go_round_the_tabs(browser: Browser, folder: Path) -> None:
    for key, tabs in (("x", ("ranges", "ranges")), ("\ue014", ("ranges", "files", "parts", "ranges")), ("\ue012", ("ranges", "parts", "files", "ranges"))):
        for tab, wanted in zip(tabs, tabs[1:]):
            browser.type(f"#tab-{tab}", key)
            same(browser.run("return [document.activeElement.id, document.getElementById(arguments[0]).hidden]", wanted), [f"tab-{wanted}", False])
            reached = "return [...document.querySelectorAll('[role=tab]')].filter((it) => it.tabIndex === 0).map((it) => it.id)"
            same(browser.run(reached), [f"tab-{wanted}"])


def the_page_asks_no_other_place(browser: Browser, folder: Path) -> None:
    """What asks another place is refused by the policy, and so is a script that is written into the page."""
    refused = """
        window.done = { policy: [] };
        document.addEventListener("securitypolicyviolation", (event) => window.done.policy.push(event.effectiveDirective));
        fetch("http://127.0.0.1:9/").then(() => (window.done.fetch = "sent"), () => (window.done.fetch = "refused"));
        new Image().src = "http://127.0.0.1:9/";
        const script = document.createElement("script");
        script.textContent = "window.done.script = 'ran'";
        document.body.append(script);
    """
    browser.run(refused)
    wait(browser, "window.done.fetch && window.done.policy.length === 3")
    found = browser.run("return [window.done.fetch, window.done.script ?? null, window.done.policy.sort()]")
    same(found, ["refused", None, ["connect-src", "img-src", "script-src-elem"]])


def a_message_stays_on_its_tab(browser: Browser, folder: Path) -> None:
    browser.click("#tab-parts")
    fill(browser, {"from": 10**6, "to": 10**6})
    choose(browser, "byte")
    browser.click("#tab-files")
    same(error(browser), None)
    browser.type("#pairs-of", file(folder, "no-pairs", b"no pair\n"))
    wait(browser, "!document.getElementById('error').hidden")
    for tab, said in (("parts", "The file has no such bytes."), ("ranges", None), ("files", "Line 1 is no pair of 64 hex digits, a space, and a size.")):
        browser.click(f"#tab-{tab}")
        same(error(browser), said, tab)
    browser.click("#tab-parts")
    drop(browser, "dropped", SMALL)
    settled(browser, "files", lambda it: it[2] == "Done.")
    same(error(browser), "The file has no such bytes.")
    browser.click("#tab-files")
    same(error(browser), None)


def nothing_lives_that_is_not_shown(browser: Browser, folder: Path) -> None:
    """The module's memory holds its area, a subtree for each range, and a tree if there is a file."""
    script = """
        const trees = document.getElementById("part-file-hash").textContent === "" ? 0 : 1;
        return Number(document.documentElement.dataset.blocks) - 1 - document.querySelectorAll(".range").length - trees;
    """
    living = lambda what: same(browser.run(script), 0, what)  # noqa: E731
    living("opened")
    for position in (10, 16, 32, 48, 10):
        browser.click(f"#between-{position}")
        living(f"between {position}")
    for button in ("#cut-again", "#cut-at-random", "#cut-again", "#draw button", "#cut-at-random", "#draw button"):
        browser.click(button)
        living(button)
    browser.click("#play")
    wait(browser, "document.querySelectorAll('#history li').length === 1")
    living("played")
    browser.click("summary")
    for given in (lines_of(LINES), "", lines_of(LINES[:1]), lines_of([(LINES[0][0], 2**64 - 1), LINES[1]])):
        fill(browser, {"pairs": given})
        browser.click("#paste button")
        living(f"pasted {given[:70]}")
    browser.click("#tab-parts")
    for name in ("a file", "made", "an empty file", "made", "too long", "made", "a file"):
        choices_of(folder)["parts"][name](browser)
        settled(browser, "parts", ENDS["parts"][name])
        living(name)
        for change in ("byte", "node", "nothing"):
            choose(browser, change)
            living(f"{name}, {change} changed")


CASES: Dict[str, Callable[[Browser, Path], None]] = {
    it.__name__.replace("_", " "): it
    for it in (
        each_control_is_used_by_a_test, a_list_can_be_merged_at_once, lists_may_have_cr_lf, cuts_may_be_at_both_ends, a_part_may_end_beyond_the_file, there_are_limits,
        choices_of_files_end_earlier_ones, choices_of_parts_end_earlier_ones, what_is_not_read_yet_shows_nothing, a_message_stays_on_its_tab,
        nothing_lives_that_is_not_shown, work_can_be_cancelled, files_are_cut_as_xet_does, versions_show_the_chunks_that_they_share, what_is_dropped_stays_on_the_page, a_worker_that_cant_run_is_told,
        what_is_pressed_ends_what_plays, another_root_is_told, arrows_go_round_the_tabs, the_page_asks_no_other_place,
        ranges_show_the_nodes_that_they_keep, what_is_not_chosen_shows_nothing,
    )
}


def try_cases(browser: Browser, names: List[str]) -> None:
    """Tries some cases, each on a page of its own."""
    with tempfile.TemporaryDirectory() as site:
        url = probed(Path(site))
        for name in names:
            with tempfile.TemporaryDirectory() as folder:
                opened(browser, url)
                CASES[name](browser, Path(folder))
        print(f"{browser.version()}: {len(names)} cases of choices passed", flush=True)
