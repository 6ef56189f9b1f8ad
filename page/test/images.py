"""Images, dumps and files that are none, for the tests of the page."""
import random
import subprocess

HEADER, GROUP, BLOCK = 64, 512, 64


def made_by_station(programs, path, seed, cuts, groups, homes, keep_cut=False):
    """An image of the simulated station; keep_cut: as its last cut leaves it."""
    path.unlink(missing_ok=True)
    words = [programs / "station", "--seed", str(seed), "--cuts", str(cuts), "--groups", str(groups), "--homes", str(homes), "--file", path]
    subprocess.run(words + (["--keep-cut"] if keep_cut else []), check=True, stdout=subprocess.DEVNULL)
    return path.read_bytes()


def dump_of(image):
    """A FRAM's bytes: the header's older copy first, the newer one behind it, each with its complement."""
    used, older = image[:12], bytearray(image[:12])
    older[2:8] = bytes(6)
    copies = bytearray(HEADER)
    for at, copy in ((0, older), (32, used)):
        copies[at:at + 12] = copy
        copies[at + 12:at + 24] = bytes(255 - byte for byte in copy)
    return bytes(copies) + image[HEADER:]


def torn_dump_of(image):
    """The same, power gone inside the write of the copy that was to be the newer one."""
    copies = bytearray(HEADER)
    copies[:12] = image[:12]
    copies[12:24] = bytes(255 - byte for byte in image[:12])
    copies[32:40] = image[:8]
    return bytes(copies) + image[HEADER:]


def damaged(image, seed):
    """The image with some bytes changed, or its end cut off."""
    chance, bytes_ = random.Random(seed), bytearray(image)
    for _ in range(chance.choice([1, 3, 40])):
        bytes_[chance.randrange(64 if chance.random() < 0.3 else len(bytes_))] = chance.randrange(256)
    return bytes(bytes_[:chance.randrange(1, len(bytes_))] if chance.random() < 0.3 else bytes_)


def make(folder, programs):
    """Files by name. Sound, cut, damaged, dumped, and none at all."""
    plain = made_by_station(programs, folder / "plain.img", 3, 20, 16, 48)
    cut = made_by_station(programs, folder / "cut.img", 9, 31, 16, 48, keep_cut=True)
    torn = made_by_station(programs, folder / "torn.img", 5, 12, 40, 90, keep_cut=True)
    files = {"plain.img": plain, "cut.img": cut, "torn.img": torn, "fram.bin": dump_of(cut), "fram-torn.bin": torn_dump_of(cut),
             "inside.bin": b"\x11" * 1000 + cut, "empty.img": b"", "zeros.img": bytes(5000), "letter.txt": b"Dear station,\n" * 40,
             "older.img": bytes([0x50, 0x48]) + plain[2:], "short.img": plain[:3000], "long.img": plain + bytes(100),
             "no-mark.img": b"\xff\xff" + plain[2:], "worn.img": plain[:2] + (2 ** 47).to_bytes(6, "little") + plain[8:],
             "-odd \"name\" é.img": plain}
    files.update({"damaged-%d.img" % i: damaged((plain, cut, torn)[i % 3], i) for i in range(24)})
    for name, content in files.items():
        (folder / name).write_bytes(content)
    for name, size in (("huge.img", 40 << 20), ("giant.img", 5 << 30)):
        with open(folder / name, "wb") as file:
            file.truncate(size)
    return files
