"""What both programs answer to good, damaged and hostile lists and images."""
from images import (
    ONE, assigned, assigned_image, compact, header, keys_of, lines, packed, pairs_of, raised, vertices, width,
)
from room import BUILT, OLD, REFUSED, SAME, SOME_OTHER, Room, hold, missing, refused


def status_of(expected):
    if expected.startswith("refused"):
        return REFUSED
    return SAME if expected.endswith(" other=0\n") else SOME_OTHER


def built(what, key_list, expected):
    """An accepted build over an old index, then every key tried; gives the image."""
    with Room({"keys.lst": key_list, "index.bdz": OLD}) as room:
        hold(f"{what}, build_index", room.run("build_index"), ("", "", BUILT))
        hold(f"{what}, nothing left beside it", room.left(), [])
        image = room.holds("index.bdz")
        hold(f"{what}, tryall", room.run("tryall"), (expected, "", SAME))
        return image


def not_built(what, key_list, number):
    """A refused build leaves the old index as it was."""
    files = {"index.bdz": OLD}
    if key_list is not None:
        files["keys.lst"] = key_list
    with Room(files) as room:
        said = missing("keys.lst") if key_list is None else ""
        hold(f"{what}, build_index", room.run("build_index"), (refused(number), said, REFUSED))
        hold(f"{what}, old index", room.holds("index.bdz"), OLD)
        hold(f"{what}, nothing left beside it", room.left(), [])


def tried(what, key_list, image, expected):
    files = {"keys.lst": key_list}
    if image is not None:
        files["index.bdz"] = image
    with Room(files) as room:
        said = missing("index.bdz") if image is None else ""
        hold(f"{what}, tryall", room.run("tryall"), (expected, said, status_of(expected)))
        hold(f"{what}, image", room.holds("index.bdz"), image)


def accepted_lists():
    image = built("document 01's key 7", ONE, "image BDZ2 n=1 m=1 bits=3\nkeys=1 same=1 other=0\n")
    written = "42445A320100000001000000010000000100000000000000060000000300000005"
    hold("document 01's 33 bytes", image, bytes.fromhex(written))
    image = built("one compact key", compact([7]), lines("BDZ3", 1, 1, 2, 1, 1))
    hold("one compact key, length and last bytes", (len(image), image[-2:]), (34, b"\0\1"))
    image = built("no keys", assigned([], 6), lines("BDZ2", 0, 0, 3, 0, 0))
    hold("no keys, the header alone", image, header(b"BDZ2", 1, 0, 0, 0, 6, 3))
    for n, modulus in ((2, 2), (3, 65536), (13, 13), (101, 65536), (1000, 1000), (1000, 65536)):
        pairs, expected = pairs_of(n, modulus), lines("BDZ2", n, vertices(n), width(modulus), n, n)
        image = built(f"{n} assigned keys, modulus {modulus}", assigned(pairs, modulus), expected)
        hold(f"{n} assigned keys, modulus {modulus}, image", (image, n), assigned_image(pairs, modulus, width(modulus)))
    for n in (2, 3, 14, 15, 101, 1000):
        built(f"{n} compact keys", compact(keys_of(n)), lines("BDZ3", n, raised(vertices(n)), 2, n, n))


def damaged_lists():
    three = assigned(pairs_of(3, 9), 9)
    plain = compact(keys_of(3))
    bad = {"missing": None, "empty": b""}
    bad.update({f"assigned, cut at {at}": three[:at] for at in range(1, len(three)) if at < 6 or (at - 6) % 14})
    bad.update({f"compact, cut at {at}": plain[:at] for at in range(1, len(plain)) if at % 10})
    bad["compact behind assigned"] = three + plain
    bad["assigned behind compact"] = plain + three[6:]
    bad["modulus twice"] = three[:6] + three
    bad["no modulus"] = three[6:]
    bad["another letter"] = three[:21] + b"W" + three[22:]
    bad["another first letter"] = b"L" + plain[1:]
    bad["modulus 65,537"] = assigned(pairs_of(3, 9), 65537)
    bad["1,001 assigned records"] = assigned(pairs_of(1001, 65536), 65536)
    bad["1,001 compact records"] = compact(keys_of(1001))
    bad["100,000 assigned records"] = assigned(pairs_of(100000, 65536), 65536)
    bad["100,000 compact records"] = compact(keys_of(100000))
    for what, key_list in bad.items():
        not_built(f"list {what}", key_list, 19)
    for what in ("empty", "compact, cut at 11", "compact behind assigned", "1,001 compact records", "modulus 65,537"):
        tried(f"list {what}", bad[what], OLD, refused(19))
    with Room({"index.bdz": OLD}) as room:
        hold("list missing, tryall", room.run("tryall"), (refused(19), missing("keys.lst"), REFUSED))


def refused_builds():
    not_built("modulus 0", assigned([(7, 0)], 0), 2)
    not_built("value as large as the modulus", assigned([(7, 6)], 6), 3)
    not_built("value twice", assigned([(7, 5), (8, 5)], 6), 4)
    not_built("key twice, assigned", assigned([(7, 4), (7, 5)], 6), 5)
    not_built("key twice, compact", compact([7, 8, 7]), 5)


def images():
    pairs, keys = pairs_of(40, 50), keys_of(40)
    two, three = assigned(pairs, 50), compact(keys)
    good_two = lines("BDZ2", 40, vertices(40), 6, 40, 40)
    good_three = lines("BDZ3", 40, raised(vertices(40)), 2, 40, 40)
    first, second = built("40 assigned keys", two, good_two), built("40 compact keys", three, good_three)
    tried("compact image, assigned list", two, second, refused(8))
    tried("assigned image, compact list", three, first, refused(8))
    tried("image missing, assigned", two, None, refused(6))
    tried("image missing, compact", three, None, refused(7))
    for at in (0, 1, 31, 32, 33, len(first) - 1):
        tried(f"assigned image cut at {at}", two, first[:at], refused(6 if at < 32 else 7))
    for at in (0, 1, 31, 32, 33, len(second) - 1):
        tried(f"compact image cut at {at}", three, second[:at], refused(7))
    for more in (1, 4096, 300000):
        tried(f"assigned image with {more} bytes behind it", two, first + b"\xff" * more, good_two)
        tried(f"compact image with {more} bytes behind it", three, second + b"\xff" * more, good_three)
    tried("version 2", two, first[:4] + b"\2" + first[5:], refused(9))
    tried("width 0", two, first[:28] + b"\0" + first[29:], refused(10))
    tried("width 33", two, first[:28] + b"\x21" + first[29:], refused(10))
    tried("modulus 0", two, first[:24] + b"\0" + first[25:], refused(11))
    other = header(b"BDZ2", 1, 1, 1, 1, 6, 3) + b"\4"
    tried("another answer", ONE, other, lines("BDZ2", 1, 1, 3, 1, 0))


def widths():
    """An opened image has the width of its header, which need not be that of its modulus."""
    for bits in range(1, 33):
        for n, modulus in ((1, 6), (2, 6), (40, 50), (600, 60000)):
            pairs = pairs_of(n, modulus)
            image, same = assigned_image(pairs, modulus, bits)
            expected = lines("BDZ2", n, vertices(n), bits, n, same)
            key_list = assigned(pairs, modulus)
            tried(f"{n} keys, modulus {modulus}, width {bits}", key_list, image, expected)
            if n < 600:
                tried(f"{n} keys, width {bits}, bytes behind", key_list, image + b"\xff" * 9, expected)
                tried(f"{n} keys, width {bits}, cut", key_list, image[:-1], refused(7))
        tried(f"no keys, width {bits}", assigned([], 6), header(b"BDZ2", 1, 0, 9, 5, 6, bits), lines("BDZ2", 0, 0, bits, 0, 0))
        table = [2**32 - 1 - v for v in range(65536)]
        image = header(b"BDZ2", 1, 50000, 65536, 1, 1, bits) + packed(table, bits)
        tried(f"m 65,536, width {bits}", assigned([(5, 0)], 1), image, lines("BDZ2", 50000, 65536, bits, 1, 1))


def small_images():
    # an index of no keys answers 0 to every key, and so does a compact one of one key: the first key that is asked holds it
    some, ids = assigned([(1, 2), (2, 0), (3, 1)], 3), compact([1, 2, 3])
    tried("assigned image of no keys", some, header(b"BDZ2", 1, 0, 9, 5, 3, 2), lines("BDZ2", 0, 0, 2, 3, 1))
    tried("compact image of no keys", ids, header(b"BDZ3", 1, 0, 9, 5, 0, 2), lines("BDZ3", 0, 0, 2, 3, 1))
    tried("compact image of one key", ids, header(b"BDZ3", 1, 1, 1, 1, 0, 2) + b"\0\1", lines("BDZ3", 1, 1, 2, 3, 1))


def large_images():
    # a table of zeros answers 0, and an occupancy of zeros ranks to 0
    some = assigned([(1, 2), (2, 0), (3, 1)], 3)
    whole = header(b"BDZ2", 1, 50000, 65536, 1, 2**32 - 1, 32) + bytes(4 * 65536)
    tried("the longest assigned image", some, whole, lines("BDZ2", 50000, 65536, 32, 3, 1))
    tried("the longest assigned image, cut", some, whole[:-1], refused(7))
    tried("m 65,537", some, header(b"BDZ2", 1, 50000, 65537, 1, 3, 2) + bytes(16385), refused(14))
    tried("m 65,537, cut", some, header(b"BDZ2", 1, 50000, 65537, 1, 3, 2) + bytes(16384), refused(7))
    ids = compact([1, 2, 3])
    whole = header(b"BDZ3", 1, 50000, 65535, 1, 0, 2) + bytes(16384 + 8192)
    tried("a long compact image", ids, whole, lines("BDZ3", 50000, 65535, 2, 3, 1))
    tried("a long compact image, cut", ids, whole[:-1], refused(7))
    tried("compact m 65,538", ids, header(b"BDZ3", 1, 50000, 65538, 1, 0, 2) + bytes(16385 + 8193), refused(14))


def every_answer():
    for topic in (accepted_lists, damaged_lists, refused_builds, images, widths, small_images, large_images):
        topic()
