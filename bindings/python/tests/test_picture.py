"""Pictures: they are well-formed, say what the subtree has, and stay small."""

import runpy
import sys
import xml.etree.ElementTree as ElementTree
from pathlib import Path

import pytest

import yurewha as y

SVG = "{http://www.w3.org/2000/svg}"
ROOT = Path(__file__).resolve().parents[3]


def numbered(first, last):
    return [(y.Hash(i.to_bytes(24, "little") + bytes([i % 4 != 3]) + bytes(7)), 1) for i in range(first, last + 1)]


def read(text):
    root = ElementTree.fromstring(text)
    assert root.tag == SVG + "svg"
    words = [element.text for element in root.iter(SVG + "text")]
    nodes = [element for element in root.iter(SVG + "rect") if element.find(SVG + "title") is not None]
    return root, words, nodes


def test_levels_nodes_marks_and_sizes():
    tree = y.Subtree.from_chunks(False, numbered(0, 23), False)
    _, words, nodes = read(tree._repr_svg_())
    assert len(nodes) == tree.num_nodes == 15
    assert [kind for kind in ("level 0", "level 1", "level 2") if kind in words] == ["level 0", "level 1"]
    assert words.index("level 1") < words.index("level 0")
    assert "15 nodes kept on 2 levels, for 24 bytes of chunks" in words
    assert "8 nodes, 8 bytes" in words and "4 nodes, 4 bytes" in words and "3 nodes, 12 bytes" in words
    assert "hashed away: 12 bytes" in words and words.count("open") == 2
    assert not [word for word in words if word.startswith("+")], "all nodes are shown"
    titles = [node.find(SVG + "title").text for node in nodes]
    assert f"{numbered(0, 0)[0][0].hex()}: 1 byte" in titles
    cuts = [node for node in nodes if node.get("class") == "k"]
    assert len(cuts) == sum(h % 4 == 0 for h, _ in tree.to_flat().nodes)


def test_marks():
    for marks in ((True, True), (True, False), (False, True)):
        _, words, _ = read(y.Subtree.from_chunks(marks[0], numbered(0, 40), marks[1]).svg())
        assert ("start" in words, "end" in words) == marks


def test_the_same_picture_in_a_file(tmp_path):
    tree = y.Subtree.from_chunks(True, numbered(0, 30), False)
    tree.write_svg(tmp_path / "one.svg")
    assert (tmp_path / "one.svg").read_text(encoding="utf-8") == tree._repr_svg_()
    tree.write_svg(str(tmp_path / "two.svg"), "<a> & b\0")
    _, words, _ = read((tmp_path / "two.svg").read_text(encoding="utf-8"))
    assert words[0] == "<a> & b "


def test_rules_are_for_the_picture_alone():
    """A notebook shows the picture in its page, where a rule without the class would be for the whole page."""
    root, _, _ = read(y.Subtree.from_chunks(True, numbered(0, 30), False).svg())
    assert root.get("class") == "yurewha"
    (style,) = root.iter(SVG + "style")
    selectors = [rule.partition("{")[0] for rule in style.text.split("}") if rule]
    assert len(selectors) > 5 and all(selector.startswith(".yurewha ") for selector in selectors)


def test_long_captions_stand_in_several_lines():
    tree = y.Subtree.from_chunks(True, numbered(0, 30), True)
    caption = "a caption of many words, " * 20
    plain, long = tree.svg("a caption"), tree.svg(caption)
    root, words, _ = read(long)
    lines = [element.text for element in root.iter(SVG + "text") if element.get("class") == "c"]
    assert " ".join(lines) == caption.strip() and 5 < len(lines) < 10 and max(map(len, lines)) <= 90
    assert int(root.get("height")) == int(read(plain)[0].get("height")) + 18 * (len(lines) - 1)
    _, words, _ = read(tree.svg(200 * "a"))
    assert words[:3] == [90 * "a", 90 * "a", 20 * "a"]


def test_several():
    left, right = (y.Subtree.from_chunks(False, numbered(*ends), False) for ends in ((0, 19), (20, 23)))
    _, words, nodes = read(y.svg_of([left, right, left + right], ["left", "right", "both"]))
    assert len(nodes) == left.num_nodes + right.num_nodes + (left + right).num_nodes
    assert [word for word in words if word in ("left", "right", "both")] == ["left", "right", "both"]
    read(y.svg_of([]))


@pytest.mark.parametrize("caption", [7, None, b"a", ["a"], 7.5])
def test_wrong_captions(caption, tmp_path):
    tree, path = y.Subtree.from_chunks(True, numbered(0, 3), True), tmp_path / "one.svg"
    path.write_text("kept")
    for call in (lambda: tree.svg(caption), lambda: tree.svg(caption=caption), lambda: tree.write_svg(path, caption),
                 lambda: y.write_svg(path, [tree, tree], ["a", caption]), lambda: y.svg_of([tree], [caption])):
        with pytest.raises(TypeError, match=f"^caption [01] must be a str, got {type(caption).__name__}"):
            call()
    assert path.read_text() == "kept"


def test_wrong_lists_of_captions_and_subtrees(tmp_path):
    tree, path = y.Subtree.from_chunks(True, numbered(0, 3), True), tmp_path / "one.svg"
    path.write_text("kept")
    for trees, captions in (([tree, tree], "ab"), ([tree], 7), ([tree], None), (7, []), ([7], []), ([tree, None], ["a", "b"]),
                            (tree, [])):
        for call in (y.svg_of, lambda *given: y.write_svg(path, *given)):
            with pytest.raises(TypeError):
                call(trees, captions)
    with pytest.raises(y.InvalidArguments, match="^there must be at most . captions"):
        y.svg_of([], ["a"])
    assert path.read_text() == "kept"
    assert y.svg_of(iter([tree]), iter(["a"])) == y.svg_of([tree], ("a",))


def test_the_picture_of_the_readme(monkeypatch):
    monkeypatch.setattr(sys, "path", list(sys.path))  # the script adds to it
    draw = runpy.run_path(str(ROOT / "docs/pictures/draw"))
    assert draw["subtrees"]() == (ROOT / "bindings/python/merge.svg").read_text(encoding="utf-8")


def test_great_ones_stay_small():
    wide = y.Subtree.from_chunks(False, [(y.Hash(i.to_bytes(24, "little") + b"\1" + bytes(7)), 1) for i in range(5000)], False)
    assert wide.num_nodes == 5000 and len(wide.svg()) < 10_000
    high = y.Subtree.from_flat(True, 5000 * [(0, 0)] + [(1, 0)], [(y.Hash(), 1)], True)
    assert high.num_levels == 5001 and len(high.svg()) < 30_000
    _, words, _ = read(high.svg())
    assert ".. 4,977 levels" in words and "level 5000" in words and "level 0" in words
