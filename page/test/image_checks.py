"""Opening images: the page says what the inspector of the command line says."""
import csv
import io
import subprocess

PRINTED = """const part = [...document.querySelectorAll("details.printed")].find(one => one.dataset.kind === "%s");
    part.open = true; await new Promise(go => setTimeout(go, 0)); await new Promise(go => requestAnimationFrame(go));
    for (let i = 0; i < 50 && !part.querySelector("pre").textContent; i++) await new Promise(go => setTimeout(go, 10));
    return part.querySelector("pre").textContent"""


def choose(browser, path):
    """Chooses a file and waits for the page's word on it."""
    browser.run('document.getElementById("image-said").textContent = ""')
    browser.files("file", [path])
    browser.wait('document.getElementById("image-said").textContent')
    return browser.text("image-said")


def drop_once(browser, path, target, seconds):
    browser.run("""document.getElementById("image-said").textContent = "";
        document.getElementById("%s").scrollIntoView({ behavior: "instant" })""" % target)
    box = browser.run("const box = document.getElementById('%s').getBoundingClientRect(); return { x: box.x + 40, y: box.y + 20 }" % target)
    for kind in ("dragEnter", "dragOver", "drop"):
        browser.send("Input.dispatchDragEvent", type=kind, data={"items": [], "files": [str(path)], "dragOperationsMask": 1}, **box)
    browser.wait('document.getElementById("image-said").textContent', seconds)


def drop(browser, path, target="drop"):
    """Drops a file from outside on an element of the page; again, where the browser lost the drop while it laid the page out."""
    for seconds in (10, 20):
        try:
            drop_once(browser, path, target, seconds)
            break
        except TimeoutError:
            continue
    else:
        drop_once(browser, path, target, 60)
    return browser.text("image-said")


def native(programs, folder, name, *words):
    """What the program of the command line prints for a file: output, errors, status."""
    done = subprocess.run([programs / "inspect", *words, name if not name.startswith("-") else "./" + name], cwd=folder, capture_output=True)
    return done.stdout.decode("utf-8", "replace"), done.stderr.decode("utf-8", "replace"), done.returncode


def same_words(browser, programs, folder, name, plain=None, words=()):
    """Both outputs of the page against the inspector's, over the file or over the plain image that it stands for."""
    for kind, option in (("text", []), ("JSON", ["--json"])):
        wants = native(programs, folder, plain or name, *option, *words)[0]
        if plain:
            wants = wants.replace(plain, name)
        assert browser.run(PRINTED % kind) == wants, "%s: the page's %s is not the inspector's" % (name, kind)


def ring(browser, name):
    """The picture counts the blocks as the inspector counts places."""
    told = browser.run("""const label = document.querySelector("#image-out .ring").getAttribute("aria-label");
        const count = words => Number((new RegExp("(\\\\d+) " + words).exec(label) || [0, 0])[1]);
        return [count("landed, comes back"), count("landed, will not") + count("landed, not known"), count("torn"), label]""")
    places = browser.run("return /places(.*?)unused/.exec(document.querySelector('#image-out .lines').textContent)[1]")
    back, others, torn = (int(places.split(word)[0].split(" ")[-2]) for word in ("with entries", "with others", "torn"))
    assert told[:3] == [back, others, torn], "%s: %s / %s" % (name, told[3], places)


def every_image(browser, programs, folder, files):
    """Sound, torn and damaged images; where the inspector gives up the page tells its reasons. Returns how many were shown and refused."""
    shown = refused = 0
    for name in files:
        if name.endswith(".bin") or not files[name]:
            continue
        said = choose(browser, folder / name)
        output, errors, status = native(programs, folder, name)
        if output:
            browser.wait("document.getElementById('proved')")
            same_words(browser, programs, folder, name)
            ring(browser, name)
            assert ("sound" in said) == (status == 0), name + ": " + said
            assert "NOT the same" not in browser.text("proved"), name + ": " + browser.text("proved")
            shown += 1
        else:
            reasons = [line.removeprefix("inspect: ").replace("give --groups N", "give their number below") for line in errors.strip().split("\n")]
            assert said == "\n".join(reasons) + ".", name + ": " + said + " / " + errors
            assert browser.run("return document.getElementById('image-out').childElementCount === 0 && document.getElementById('image-options').open")
            refused += 1
    return shown, refused


def dumps(browser, programs, folder):
    """FRAM dumps, whole and with a torn copy; an image that begins inside a file; a shape given by hand."""
    for name in ("fram.bin", "fram-torn.bin"):
        assert "dump of a FRAM" in drop(browser, folder / name)
        browser.wait("document.getElementById('proved')")
        same_words(browser, programs, folder, name, plain="cut.img")
    assert "sound" in drop(browser, folder / "cut.img", "homes"), "a file dropped elsewhere on the page is not opened"
    choose(browser, folder / "inside.bin")
    browser.run("document.getElementById('at-begin').value = 1000; document.getElementById('image-options').open = true")
    browser.click("read-again")
    browser.wait("document.getElementById('proved')")
    same_words(browser, programs, folder, "inside.bin", plain="cut.img")
    choose(browser, folder / "no-mark.img")
    browser.run("document.getElementById('at-groups').value = 16; document.getElementById('at-homes').value = 48")
    browser.click("read-again")
    browser.wait("document.getElementById('proved')")
    same_words(browser, programs, folder, "no-mark.img", words=("--groups", "16", "--homes", "48"))


def no_images(browser, folder):
    """Files that cannot be images are refused in words, and without being read."""
    assert "empty" in choose(browser, folder / "empty.img")
    for name in ("huge.img", "giant.img"):
        said = drop(browser, folder / name)
        assert "too large" in said and "Nothing was opened" in said, said
        assert browser.run("return document.getElementById('image-out').childElementCount === 0")


def wear(browser, programs, folder):
    """The wear sheet of an image against the program that makes wear sheets."""
    choose(browser, folder / "plain.img")
    browser.wait("document.getElementById('interval')")
    browser.run("const field = document.getElementById('interval'); field.value = 1; field.dispatchEvent(new Event('input'))")
    rows = browser.run("""const titled = one => one.querySelector("h3").textContent === "Wear of the pumps";
        const part = [...document.querySelectorAll(".part")].find(titled);
        return [...part.querySelectorAll("tbody tr")].map(row => [...row.cells].map(cell => cell.textContent))""")
    words = [programs / "wear", "--interval", "1", "--csv", folder / "plain.img"]
    sheet = subprocess.run(words, check=True, capture_output=True, text=True).stdout
    wants = list(csv.DictReader(io.StringIO(sheet)))
    assert len(rows) == len(wants) > 3, "%d pumps in the page, %d on the sheet" % (len(rows), len(wants))
    for row, want in zip(rows, wants):
        least = ">=" if want["worn_bound"] == "at least" else ""
        hours = least + "%d.%02d" % divmod(int(want["worn_seconds"]) // 36, 100)
        wanted = [want["pump"], want["starts"], hours, least + want["services_due"]]
        assert [row[0].split(" ")[0], row[1], row[2], row[4]] == wanted and (least != "") == ("running" in row[0]), (row, want)
