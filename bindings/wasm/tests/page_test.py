"""The page web/ in Chromium and Firefox: ranges are cut and merged, files hashed, and parts of files read with a proof. Roots and
counts are compared with the model's, and each state is photographed. Then the cases of page_cases.py are tried.

    page_test.py FOLDER         all, with the photographs in FOLDER
    page_test.py FOLDER CASE    a case, in Chromium alone
"""

from __future__ import annotations

import functools
import shutil
import sys
import tempfile
from pathlib import Path
from typing import Callable, List

from pages import ROOT, Browser, Chromium, Firefox, address_of, choose, error, fill, opened, same, served, text, wait
import chunker
import page_cases
import range_proof as r
import xet_model as m

# What the page draws when it is opened, and where the list is cut then, and merged.
SEED, COUNT, CUTS = 122, 64, (16, 32, 48)
ORDERS = ((16, 32, 48), (48, 32, 16), (16, 48, 32))


@functools.lru_cache(maxsize=None)
def maker(group: tuple[m.Node, ...]) -> m.Hash:
    return m.blake_maker(group)


def drawn(seed: int, count: int) -> List[m.Node]:
    return [(m.random_from_seed(seed + k), 100 + 977 * k % 9901) for k in range(count)]


def parents_of(nodes: List[m.Node], order: tuple[int, ...]) -> List[int]:
    """How many parents each merge at these positions hashes."""
    ends = [0, *CUTS, len(nodes)]
    leaves = {b: m.Leaf(tuple(nodes[a:b]), a == 0, b == len(nodes)) for a, b in zip(ends, ends[1:])}
    counts = []
    for position in order:
        front = leaves.pop(position)
        end = min(end for end in leaves if end > position)
        counts.append(m.joined_count(front, leaves[end], maker))
        leaves[end] = m.join_ranges(front, leaves[end])
    return counts


def merge_in_each_order(browser: Browser, photo: Callable[[str], None]) -> None:
    """The list is cut at three places, and merged in three bracketings."""
    nodes = drawn(SEED, COUNT)
    wanted = m.to_hex(m.root(nodes, maker))
    same(text(browser, "root-at-once"), wanted)
    same(browser.run("return document.querySelectorAll('.row .node.cut').length >= 1"), True)
    cuts = browser.run("return [...document.querySelectorAll('.pair .node')].map((it) => it.classList.contains('cut'))")
    same(cuts, [m.is_cut(node) for node in nodes])
    same(browser.run("return [...document.querySelectorAll('button.merge')].map((it) => it.id)"), [f"between-{position}" for position in CUTS])
    photo("cut")
    for number, order in enumerate(ORDERS):
        if number:
            browser.click("#cut-again")
        for position, parents in zip(order, parents_of(nodes, order)):
            browser.click(f"#between-{position}")
            same(f"{parents} parent{'s' * (parents != 1)} hashed" in text(browser, "said"), True)
        same(text(browser, "root-merged"), wanted)
        same(text(browser, "verdict"), "The same.")
        history = browser.run("return document.querySelector('#history li:last-child').textContent")
        same(f", {sum(parents_of(nodes, order))} parent" in history and history.endswith(wanted), True)
        photo(f"merged-{number + 1}")
    roots = browser.run("return [...document.querySelectorAll('#history code')].map((it) => it.textContent)")
    same(roots, [wanted] * 3)
    kept = browser.run("return document.querySelector('.figures').textContent")
    whole = m.canon(nodes, True, True, maker)
    same(kept.startswith(f"Keeps {whole.num_nodes()} node{'s' * (whole.num_nodes() != 1)} of {COUNT} chunks."), True)


def use_the_keyboard(browser: Browser) -> None:
    """A cut and a merge by the keys, after which the button has the focus; and the tabs by arrows."""
    browser.type("#between-9", "\ue007")
    same(browser.run("return document.querySelectorAll('.range').length"), 2)
    same(browser.run("return document.activeElement.id"), "between-9")
    browser.type("#between-9", " ")
    same(browser.run("return document.querySelectorAll('.range').length"), 1)
    same(browser.run("return document.activeElement.id"), "between-9")
    browser.type("#tab-ranges", "\ue014")
    same(browser.run("return [document.activeElement.id, document.getElementById('ranges').hidden]"), ["tab-files", True])
    browser.type("#tab-files", "\ue014")
    same(browser.run("return document.activeElement.id"), "tab-parts")
    browser.type("#tab-parts", "\ue012")
    browser.type("#tab-files", "\ue012")
    same(browser.run("return document.getElementById('ranges').hidden"), False)


def draw_paste_and_play(browser: Browser, photo: Callable[[str], None]) -> None:
    nodes = drawn(7, 60)
    fill(browser, {"seed": 7, "count": 60})
    browser.click("#draw button")
    same(text(browser, "root-at-once"), m.to_hex(m.root(nodes, maker)))
    browser.click("#play")
    wait(browser, "document.querySelectorAll('#history li').length === 1")
    same(text(browser, "root-merged"), m.to_hex(m.root(nodes, maker)))
    photo("played")
    browser.click("summary")
    pasted = [((k, 1, 2, 4 + k % 3), 2**64 - 100 + k if k == 0 else k) for k in range(12)]
    lines = "".join(f"{m.to_hex(hash_)} {size}\n" for hash_, size in pasted)
    fill(browser, {"pairs": lines})
    browser.click("#paste button")
    same(text(browser, "root-at-once"), m.to_hex(m.root(pasted, maker)))
    for bad, said in (("", "Line 1 is no pair"), (lines + "x\n", "Line 13 is no pair"), (lines + lines, "Sizes or lengths add up to more than")):
        fill(browser, {"pairs": bad})
        browser.click("#paste button")
        same((error(browser) or "").startswith(said), True)
        same(text(browser, "root-at-once"), m.to_hex(m.root(pasted, maker)))
    photo("refused")


def hash_files(browser: Browser, folder: Path, photo: Callable[[str], None]) -> None:
    datas = {"empty": b"", "short.txt": b"a chunk", "long.bin": bytes(k % 251 for k in range(30_000)), "mixed.bin": chunker.mixed(300_000)}
    for name, data in datas.items():
        (folder / name).write_bytes(data)
    browser.click("#tab-files")
    browser.type("#chunks-of", "\n".join(str(folder / name) for name in datas))
    wait(browser, "document.getElementById('progress-said').textContent === 'Done.'")
    hashes = browser.run("return [...document.querySelectorAll('#named tr')].map((row) => [...row.cells].map((it) => it.textContent))")
    same(hashes, page_cases.rows_of_files(datas))
    same(browser.run("return [document.getElementById('hashed').rows.length, document.getElementById('files-roots').hidden]"), [0, True])
    same([text(browser, "progress-said"), browser.run("return document.getElementById('progress').value")], ["Done.", 1])
    photo("files")
    drop = """
        const files = new DataTransfer();
        files.items.add(new File(["a chunk"], "dropped"));
        document.getElementById("drop").dispatchEvent(new DragEvent("drop", { dataTransfer: files, bubbles: true, cancelable: true }));
    """
    browser.run(drop)
    wait(browser, "document.getElementById('named').textContent.startsWith('dropped')")
    same(browser.run("return document.getElementById('named').rows[0].cells[3].textContent"), m.to_hex(chunker.file_hash(b"a chunk")))
    data, cuts = datas["long.bin"], [0, 10_000, 10_001, 30_000]
    nodes = [(m.compute_data_hash(data[begin:end]), end - begin) for begin, end in zip(cuts, cuts[1:])]
    browser.run("document.getElementById('cuts').value = '10000, 10001'")
    browser.run(drop.replace('"a chunk"', "Uint8Array.from({ length: 30000 }, (_, k) => k % 251)"))
    wait(browser, "document.getElementById('files-count').textContent === '3' && !document.getElementById('files-roots').hidden")
    same([text(browser, "files-root"), text(browser, "files-hash")], [m.to_hex(m.root(nodes)), m.to_hex(m.file_root(nodes))])
    photo("cuts")
    for wrong in ("3, 2", "30001", "1.5", "x"):
        browser.run("document.getElementById('error').hidden = true; document.getElementById('cuts').value = arguments[0]", wrong)
        browser.run(drop)
        wait(browser, "!document.getElementById('error').hidden")
        same(text(browser, "error").startswith("The cuts must be whole numbers that rise"), True)
    browser.run("document.getElementById('error').hidden = true; document.getElementById('cuts').value = ''")
    (folder / "pairs.txt").write_text("".join(f"{m.to_hex(hash_)} {size}\n" for hash_, size in drawn(1, 200)))
    browser.type("#pairs-of", str(folder / "pairs.txt"))
    wait(browser, "document.getElementById('files-count').textContent === '200'")
    same(text(browser, "files-root"), m.to_hex(m.root(drawn(1, 200), maker)))
    (folder / "bad.txt").write_text("no pair\n")
    browser.type("#pairs-of", str(folder / "bad.txt"))
    wait(browser, "!document.getElementById('error').hidden")
    same(text(browser, "error").startswith("Line 1 is no pair"), True)
    browser.click("#tab-ranges")
    same((error(browser) or "").startswith("Sizes or lengths add up to more than"), True)


def pieces_of(data: bytes, length: int) -> List[m.Node]:
    """The nodes of chunks of one length."""
    pieces = (data[at : at + length] for at in range(0, len(data), length))
    return [(m.compute_data_hash(piece), len(piece)) for piece in pieces]


def read_a_part(browser: Browser, folder: Path, photo: Callable[[str], None]) -> None:
    """Bytes of a made file and of a picked one are read with a proof. A wrong byte and a wrong proof are refused, and marked."""
    browser.click("#tab-parts")
    made = "".join(f"line {k + 1:04}\n" for k in range(5000)).encode()
    assert_part(browser, made, 500, 25_000, 25_100)
    photo("part")
    for change, said, wrong in (("byte", "Refused: 1 chunk of", "Chunks"), ("node", "Refused: the proof", "Root")):
        choose(browser, change)
        same([text(browser, "part-verdict").startswith(said), text(browser, "part-bytes")], [True, ""])
        same(browser.run("return document.getElementById('part-verdict').className"), "other")
        same(browser.run("return document.querySelectorAll('#path .wrong').length"), 1)
        rows = "[...document.querySelectorAll('#path .name')].find((it) => it.textContent === arguments[0]).getAttribute('y')"
        height = f"return Number({rows}) - Number(document.querySelector('#path .wrong text').getAttribute('y'))"
        same(browser.run(height, wrong), 0)
        photo(f"part-{change}")
    choose(browser, "nothing")
    data = bytes(ord("a") + (k * k // 7) % 26 for k in range(40_007))
    (folder / "picked.txt").write_bytes(data)
    browser.type("#part-of", str(folder / "picked.txt"))
    wait(browser, "document.getElementById('part-file-size').textContent.startsWith('40007 bytes')")
    for first, end in ((40_000, 40_006), (0, 1), (1234, 9876), (0, 40_007)):
        fill(browser, {"from": first, "to": end - 1})
        browser.click("#read-part button")
        assert_part(browser, data, 500, first, end)
    photo("part-whole")
    fill(browser, {"from": 40_006, "to": 40_005})
    browser.click("#read-part button")
    same([text(browser, "error"), text(browser, "part-verdict")], ["The file has no such bytes.", ""])
    browser.click("#tab-ranges")


def assert_part(browser: Browser, data: bytes, length: int, first: int, end: int) -> None:
    """What the page shows of bytes that were read is what the model says."""
    nodes = pieces_of(data, length)
    chunks = r.chunks_at(nodes, first, end)
    assert chunks
    proof = r.prove(nodes, *chunks)
    count = len(r.to_flat(proof)[1])
    same(text(browser, "part-file-hash"), m.to_hex(m.file_root(nodes)))
    same(text(browser, "part-verdict"), f"Accepted: these are bytes {first} to {end - 1} of a file of {len(data)} bytes.")
    same(text(browser, "part-bytes").startswith(data[first : min(end, first + 240)].decode()), True)
    same(f"a proof of {count} nodes ({len(r.to_json_text(proof))} bytes of JSON)" in text(browser, "sent"), True)
    top = browser.run("return [...document.querySelectorAll('#path title')].at(-1).textContent")
    same(top.split("\n"), [m.to_hex(m.root(nodes)), f"{len(data)} bytes"])
    beside = [len(left) + len(right) for left, right in proof.levels]
    same(browser.run("return document.querySelectorAll('#path .beside').length"), sum(beside))
    same(browser.run("return document.querySelectorAll('#path .wrong').length"), 0)


def fits_its_width(browser: Browser) -> None:
    width = browser.run("return [document.documentElement.scrollWidth, innerWidth]")
    same(width[0] <= width[1], True)


def whole(kind: Callable[[int, bool], Browser], url: str, width: int, dark: bool, photos: Path) -> None:
    browser = kind(width, dark)
    name = f"{kind.__name__.lower()}-{width}-{'dark' if dark else 'light'}"
    photo = lambda state: browser.screenshot(photos / f"{name}-{state}.png")  # noqa: E731
    try:
        opened(browser, url)
        same(browser.run("return document.getElementById('error').hidden && document.getElementById('loading').hidden"), True)
        same(browser.run("return document.title").startswith("Yurewha"), True)
        photo("opened")
        merge_in_each_order(browser, photo)
        use_the_keyboard(browser)
        draw_paste_and_play(browser, photo)
        with tempfile.TemporaryDirectory() as folder:
            hash_files(browser, Path(folder), photo)
            read_a_part(browser, Path(folder), photo)
        same(browser.messages(), [])
        fits_its_width(browser)
        print(f"{browser.version()}, {browser.run('return innerWidth')} pixels, {'dark' if dark else 'light'}: passed")
    finally:
        browser.close()


def without_the_package(kind: Callable[[int, bool], Browser], photos: Path) -> None:
    """Both tabs say what is missing, and what to do."""
    browser = kind(1200, False)
    said = "The package isn't in ../bindings/wasm/yurewha; serve the repository's top folder, and open /web/ there."
    try:
        with tempfile.TemporaryDirectory() as folder:
            web = Path(folder, "web")
            shutil.copytree(ROOT / "web", web)
            opened(browser, address_of(served(Path(folder))))
            same([text(browser, "error"), browser.run("return document.getElementById('error').hidden")], [said, False])
            browser.screenshot(photos / f"{kind.__name__.lower()}-without-the-package.png")
            browser.run("document.getElementById('error').hidden = true")
            Path(folder, "chunk").write_bytes(b"a chunk")
            browser.click("#tab-files")
            browser.type("#chunks-of", str(Path(folder, "chunk")))
            wait(browser, "!document.getElementById('error').hidden")
            same(text(browser, "error"), said)
        print(f"{browser.version()}, without the package: passed")
    finally:
        browser.close()


def choices(kind: Callable[[int, bool], Browser], names: List[str]) -> None:
    browser = kind(1200, False)
    try:
        page_cases.try_cases(browser, names)
    finally:
        browser.close()


def main() -> None:
    photos = Path(sys.argv[1])
    photos.mkdir(parents=True, exist_ok=True)
    if sys.argv[2:]:
        choices(Chromium, sys.argv[2:])
        return
    url = address_of(served(ROOT))
    for kind in (Chromium, Firefox):
        whole(kind, url, 1200, False, photos)
        whole(kind, url, 360 if kind is Chromium else 500, True, photos)
        without_the_package(kind, photos)
        choices(kind, list(page_cases.CASES))


if __name__ == "__main__":
    main()
