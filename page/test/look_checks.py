"""Names, keys, contrast, widths and print; pictures into a folder."""

CONTRAST = """
const parse = text => (text.match(/[\\d.]+/g) || []).map(Number);
const bent = v => v / 255 <= 0.03928 ? v / 255 / 12.92 : ((v / 255 + 0.055) / 1.055) ** 2.4;
const light = ([r, g, b]) => 0.2126 * bent(r) + 0.7152 * bent(g) + 0.0722 * bent(b);
const paper = node => {
  for (let at = node; at; at = at.parentElement) {
    const colour = parse(getComputedStyle(at).backgroundColor);
    if (colour.length === 3 || colour[3] > 0) return colour;
  }
  return [255, 255, 255];
};
const poor = [];
for (const node of document.querySelectorAll("body *")) {
  if (!node.checkVisibility() || node.closest("svg, .hidden, .skip") || node.disabled) continue;
  if (![...node.childNodes].some(child => child.nodeType === 3 && child.textContent.trim())) continue;
  const style = getComputedStyle(node), one = light(parse(style.color)), other = light(paper(node));
  const ratio = (Math.max(one, other) + 0.05) / (Math.min(one, other) + 0.05);
  if (ratio < 4.5) poor.push(node.tagName + "." + node.className + " " + ratio.toFixed(2) + " " + node.textContent.slice(0, 30));
}
return poor;
"""
TALKING = ("button", "checkbox", "combobox", "slider", "spinbutton", "textbox", "link", "region", "image")


def names(browser):
    """Everything that can be used, and every picture, has a name. Returns how many."""
    nodes = browser.send("Accessibility.getFullAXTree")["nodes"]
    seen = [node for node in nodes if not node.get("ignored") and node.get("role", {}).get("value") in TALKING]
    nameless = [node["role"]["value"] for node in seen if not node.get("name", {}).get("value")]
    assert not nameless, "without a name: %s" % nameless
    return len(seen)


def keys(browser, address):
    """From the top by keys alone: Tab reaches Step, Enter presses it, and focus can be seen."""
    browser.go(address)
    for _ in range(40):
        browser.key("Tab", 9)
        if browser.run("return document.activeElement.id") == "step":
            break
    assert browser.run("return document.activeElement.id") == "step", "Tab does not reach Step"
    assert browser.run("return getComputedStyle(document.activeElement).outlineStyle") == "solid", "focus is not to be seen"
    browser.key("Enter", 13, "\r")
    assert browser.text("moment") == "Moment 2 of 2", browser.text("moment")
    for last in ("Escape", "Enter"):
        browser.run("document.getElementById('cut').focus()")
        browser.key("Enter", 13, "\r")
        assert browser.run("return document.activeElement.id") == "cut-now"
        if last == "Escape":
            browser.key("Escape", 27)
            assert browser.run("return document.activeElement.id") == "cut"
    browser.key("Enter", 13, "\r")
    assert browser.run("return document.activeElement.id") == "open"
    browser.key("Enter", 13, "\r")
    assert "No difference" in browser.text("verdict")


def theme(browser):
    """The switch turns the page dark and back."""
    paper = "return getComputedStyle(document.body).backgroundColor"
    before = browser.run(paper)
    browser.click("theme")
    assert browser.run(paper) != before and browser.text("theme") == "Light page"
    browser.click("theme")
    assert browser.run(paper) == before
    browser.run("delete document.documentElement.dataset.theme")


def for_documents(browser, address, path):
    """The picture that documents show: a cut being chosen."""
    browser.go(address + "#seed=1&program=0&moves=44")
    browser.click("cut")
    browser.run("const field = document.getElementById('fences'); field.value = 0; field.dispatchEvent(new Event('change'))")
    browser.run("for (const i of [0, 1, 4, 8, 9, 11, 12, 13]) document.querySelectorAll('#choice-blocks input')[i].click()")
    browser.wait("document.querySelectorAll('#ring .lands').length === 8")
    browser.picture(path, ".controls", ".columns")
    browser.click("cut-not")


def looks(browser, folder):
    """At 420 and 1,200 pixels, light and dark: no text too pale, nothing wider than the page; pictures and a print."""
    for width in (1200, 420):
        for dark in (False, True):
            browser.size(width)
            browser.media(dark=dark)
            poor = browser.run(CONTRAST)
            assert not poor, "contrast below 4.5: %s" % poor
            assert browser.run("return document.documentElement.scrollWidth <= innerWidth"), "wider than %d" % width
            browser.picture(folder / ("page-%d-%s.png" % (width, "dark" if dark else "light")))
    browser.media("print")
    browser.size(794)
    assert browser.run("return document.documentElement.scrollWidth <= innerWidth"), "wider than the paper"
    assert not browser.run("return document.getElementById('step').checkVisibility()"), "buttons are printed"
    browser.paper(folder / "page.pdf")
    browser.media()
    browser.size(1200)
