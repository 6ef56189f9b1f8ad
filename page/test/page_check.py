"""
Tests the page in headless Chromium.

usage: page_check.py PAGE PROGRAMS, where PROGRAMS is the folder of inspect, station and wear
       page_check.py --installed, status 0 if there is a Chromium
"""
import pathlib
import shutil
import sys
import time

import image_checks
import images
import look_checks
import station_checks
from browser import Browser, installed

def saves(browser, address, programs, folder):
    """The station's memory after long work: pumps, bands and alarms by the proved calls; as a file the inspector reads it."""
    browser.go(address + "#seed=77&program=0&moves=k200")
    browser.send("Browser.setDownloadBehavior", session=None, behavior="allow", downloadPath=str(folder))
    browser.click("from-station")
    browser.wait("document.getElementById('proved')")
    assert "the same, byte for byte" in browser.text("proved"), browser.text("proved")
    for words in ("Pumps that run at each depth", "Who may touch which home", "the pump to open first at the top", "Gravest: alarm"):
        assert words in browser.text("image-out"), "not shown: " + words
    (folder / "station.img").unlink(missing_ok=True)
    browser.click("save-station")
    for _ in range(100):
        if (folder / "station.img").exists():
            break
        time.sleep(0.05)
    assert len((folder / "station.img").read_bytes()) == 64 + 8 * 512 + 40 * 64
    image_checks.same_words(browser, programs, folder, "station.img")


def check(browser, address, programs, folder, shots):
    began = time.monotonic()

    def tell(text):
        print("page: %s (%.1f s)" % (text, time.monotonic() - began), flush=True)

    browser.size(1200)
    browser.go(address)
    station_checks.by_hand(browser)
    station_checks.every_block_count(browser)
    station_checks.past(browser)
    station_checks.links(browser, address)
    station_checks.slow_run(browser)
    tell("steps, choices, cuts inside an opening, history, links")
    tell("1,000 cuts by chance without a difference: %s" % station_checks.thousand_cuts(browser))
    tell("wrong programs caught after %s s" % ", ".join("%.1f" % s for s in station_checks.wrong_programs(browser, address)))
    files = images.make(folder, programs)
    tell("%d images in the inspector's words, %d refused in them" % image_checks.every_image(browser, programs, folder, files))
    image_checks.dumps(browser, programs, folder)
    image_checks.no_images(browser, folder)
    image_checks.wear(browser, programs, folder)
    tell("FRAM dumps, an image inside a file, empty and huge files, wear sheet")
    look_checks.theme(browser)
    look_checks.keys(browser, address)
    saves(browser, address, programs, folder)
    tell("%d controls and pictures with names; keys, theme, saved files" % look_checks.names(browser))
    image_checks.choose(browser, folder / "cut.img")
    browser.wait("document.getElementById('proved')")
    look_checks.looks(browser, shots)
    look_checks.for_documents(browser, address, shots / "station.png")
    tell("contrast and width at 420 and 1,200 pixels, light and dark, and on paper")
    missed = set(browser.run("return [...document.querySelectorAll('button[id]')].map(button => button.id)")) - browser.pressed
    assert not missed, "buttons that no test pressed: %s" % sorted(missed)
    outside = [url for url in browser.requests if not url.startswith(("file:", "data:", "blob:", "about:"))]
    assert not outside, "the page asked the network: %s" % outside
    assert not browser.errors, "the page's errors: %s" % browser.errors
    tell("every button pressed, no error, no network")


def main():
    if sys.argv[1:] == ["--installed"]:
        return 0 if installed() else 1
    page, programs = (pathlib.Path(word).resolve() for word in sys.argv[1:3])
    folder, shots = (pathlib.Path("target/page", name).resolve() for name in ("test", "shots"))
    for place in (folder, shots):
        shutil.rmtree(place, ignore_errors=True)
        place.mkdir(parents=True)
    browser = Browser(installed())
    try:
        check(browser, page.as_uri(), programs, folder, shots)
    except (AssertionError, RuntimeError, TimeoutError) as trouble:
        browser.picture(shots / "failed.png")
        print("page: FAILED: %s; %s shows it" % (trouble, shots / "failed.png"), file=sys.stderr)
        raise
    finally:
        browser.close()
    return 0


if __name__ == "__main__":
    sys.exit(main())
