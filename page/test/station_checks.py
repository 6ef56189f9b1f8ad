"""The station: steps, cuts, openings, history, links, and wrong programs that must be caught."""
import time

READY = "!document.getElementById('again').disabled"


def count(browser, name):
    return int(browser.text("count-" + name).replace(",", ""))


def choose_program(browser, program):
    browser.run("const field = document.getElementById('program'); field.value = %d; field.dispatchEvent(new Event('change'))" % program)


def steps(browser, number):
    for _ in range(number):
        browser.click("step")


def cut_and_open(browser):
    browser.click("cut-now")
    browser.click("open")
    assert "No difference" in browser.text("verdict"), browser.text("verdict")


def by_hand(browser):
    """Steps, a cut with every kind of choice, an opening, a cut inside it."""
    steps(browser, 25)
    browser.click("cut")
    browser.click("cut-not")
    browser.click("cut")
    for button in ("all-land", "none-lands", "by-chance"):
        browser.click(button)
    blocks = browser.run("return document.querySelectorAll('#choice-blocks input').length")
    if blocks:
        before = browser.text("choice-told")
        browser.run("document.querySelector('#choice-blocks input').click()")
        assert browser.text("choice-told") != before
    browser.run("const field = document.getElementById('fences'); field.value = 0; field.dispatchEvent(new Event('change'))")
    cut_and_open(browser)
    browser.click("cut")
    browser.run("const field = document.getElementById('fences'); field.value = 1; field.dispatchEvent(new Event('change'))")
    browser.run("document.querySelectorAll('#choice-blocks input').forEach((one, i) => { if (i % 3 === 0) "
                "document.querySelectorAll('#choice-blocks input')[i].click() })")
    cut_and_open(browser)
    assert count(browser, "cuts") == 2 and count(browser, "inside") == 1 and count(browser, "differences") == 0
    steps(browser, 5)


def every_block_count(browser):
    """With nothing landed only what was fenced is back, with everything landed the last group, too."""
    choose_program(browser, 0)
    for button in ("none-lands", "all-land"):
        browser.click("again")
        steps(browser, 40)
        browser.click("cut")
        browser.click(button)
        cut_and_open(browser)
    return True


def past(browser):
    """The slider goes through the history; the run can be carried on from a moment in it."""
    browser.click("again")
    steps(browser, 12)
    whole = browser.text("said")
    browser.click("earlier")
    browser.click("earlier")
    assert "Moment 11 of 13, in the past" == browser.text("moment"), browser.text("moment")
    browser.click("later")
    browser.run("const field = document.getElementById('slider'); field.value = 4; field.dispatchEvent(new Event('input'))")
    assert browser.text("moment").startswith("Moment 5 of 13")
    browser.click("carry")
    browser.wait("document.getElementById('moment').textContent === 'Moment 5 of 5'")
    steps(browser, 8)
    assert browser.text("said") == whole, "the same seed and moves gave another run"


def links(browser, address):
    """A link gives the same run in a new page; one that cannot be played says so."""
    browser.click("again")
    steps(browser, 30)
    browser.click("cut")
    browser.click("by-chance")
    browser.click("cut-now")
    browser.click("open")
    steps(browser, 7)
    told = [browser.text(name) for name in ("said", "counts", "homes", "tasks", "waiting")]
    browser.click("copy-link")
    link = browser.run("return document.getElementById('link-text').value")
    browser.go(link)
    assert [browser.text(name) for name in ("said", "counts", "homes", "tasks", "waiting")] == told, "the link gave another run"
    browser.go(address + "#seed=1&program=9&moves=x")
    assert "cannot be played" in browser.text("said")
    browser.go(address)


def slow_run(browser):
    """The slow run goes by itself and stops."""
    browser.run("const field = document.getElementById('speed'); field.value = 'quick'; field.dispatchEvent(new Event('change'))")
    browser.click("run")
    browser.wait("Number(document.getElementById('slider').max) >= 4")
    assert browser.text("run") == "Pause"
    browser.click("run")
    there = browser.text("moment")
    time.sleep(0.3)
    assert browser.text("moment") == there and browser.text("run") == "Run slowly"


def thousand_cuts(browser):
    """1,000 cuts by chance, none with a difference. Returns the counts."""
    choose_program(browser, 0)
    browser.run("document.getElementById('seed').value = 77")
    browser.click("with-seed")
    browser.click("many")
    browser.wait(READY, 60)
    counts = {name: count(browser, name) for name in ("cuts", "inside", "commits", "back", "differences")}
    assert counts["cuts"] == 1000 and counts["differences"] == 0 and counts["inside"] > 50 and counts["back"] > 500, counts
    return counts


def wrong_programs(browser, address):
    """Each is caught by a cut that the page finds, as a lost or half commit, and the link shows it again. Returns the seconds."""
    seconds = []
    for program in (1, 2, 3):
        choose_program(browser, program)
        began = time.monotonic()
        browser.click("find")
        browser.wait(READY + " && /Broken/.test(document.getElementById('verdict').textContent)", 30)
        seconds.append(time.monotonic() - began)
        verdict = browser.text("verdict")
        assert ("by half" in verdict or "is lost" in verdict) and count(browser, "differences") == 1, verdict
        assert browser.run("return document.querySelectorAll('#homes .differs').length > 0")
        link = browser.run("return document.getElementById('link-text').value")
        browser.go(link)
        assert browser.text("verdict") == verdict, "the link shows something else"
        # the same choices do no harm to the right program
        browser.go(link.replace("program=%d" % program, "program=0"))
        assert count(browser, "differences") == 0
        browser.go(address + "#seed=5&program=%d&moves=k300" % program)
        assert count(browser, "differences") == 1, "300 cuts by chance did not show program %d" % program
        browser.go(address)
    return seconds
