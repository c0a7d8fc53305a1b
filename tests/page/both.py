"""Tests of the page of `plot --html` with two tours or solutions, on a wide screen and on a phone."""

from pixels import colour_at, contrast, pixels_of
from steps import BOX, FOCUS, SIDEWAYS, TIP, middle, nothing, place, press, style, text_of

FIRST, SECOND = "document.querySelectorAll('iframe')[0]", "document.querySelectorAll('iframe')[1]"
TEXT = text_of("#difference")
PRESSED = "document.querySelector('#difference button').ariaPressed"
PLAN_A = "Route #1: 1 2\nRoute #2:\nRoute #3: 3\nRoute #4: 4 5 6\nCost 421\n"
PLAN_B = "Route #1: 1\nRoute #2: 2 3\nRoute #3: 4 5 6\nCost 381\n"
CITY_2 = "City 2, customer 1"
BOXES = "[...document.querySelectorAll('iframe')].map(frame => frame.getBoundingClientRect())"
BESIDE = f"(([a, b]) => a.top === b.top && a.right < b.left && a.height > 400)({BOXES})"
BELOW = f"(([a, b]) => a.left === b.left && a.bottom < b.top && a.height > 400)({BOXES})"
LEGS = "(d => d.split('M').length - 1)(document.querySelector('#differing').getAttribute('d'))"
VISIBLE = style("#differing", "visibility")
OPACITY = "getComputedStyle(document.querySelector('polygon:not(#lit)')).strokeOpacity"


def inside(frame, expression):
    """Returns an expression for the value of another one in the document of a frame."""
    return f"(document => {expression})({frame}.contentDocument)"


def in_both(expression):
    return f"[{inside(FIRST, expression)}, {inside(SECOND, expression)}]"


# Whether both pictures have the same centre and scale.
ALIKE = f"(([a, b]) => a.every((value, i) => Math.abs(value - b[i]) < 1e-6 * a[2]))({in_both(BOX)})"
ZOOMED = in_both("document.querySelector('#stage').classList.contains('zoomed')")


def at(frame, expression):
    """Returns the position in the window of a place that an expression has in a frame."""
    return f"(([x, y], box) => [x + box.left + 1, y + box.top + 1])({inside(frame, expression)}, {frame}.getBoundingClientRect())"


def point_in(frame, expression):
    return lambda browser: browser.point(*browser.evaluate(at(frame, expression)))


def click_in(frame, element):
    return lambda browser: browser.click(*browser.evaluate(at(frame, middle(element))))


def turn_in(frame, by):
    return lambda browser: browser.turn_wheel(*browser.evaluate(at(frame, middle("#stage"))), by)


def click_switch(browser):
    browser.click(*browser.evaluate(middle("#difference button")))


def tap_in(frame, city):
    def act(browser):
        browser.touch("touchStart", browser.evaluate(at(frame, place(city))))
        browser.touch("touchEnd")
    return act


WORDS = "DifferencesThe second costs 40 less (9.50 %). 2 of 9 legs are only in the first, 2 of 9 legs are only in the second."
ON_A_WIDE_SCREEN = [
    ("the heading has both names", nothing, text_of("h1"), "a.sol and b.sol"),
    ("and each frame has one", nothing, "[...document.querySelectorAll('figcaption')].map(name => name.textContent)", ["a.sol", "b.sol"]),
    ("the page says by how much they differ", nothing, TEXT, WORDS),
    ("each frame has its verdict", nothing, in_both(text_of("#verdict")), ["3 routes, cost 421", "3 routes, cost 381"]),
    ("and no heading of its own", nothing, in_both(style("h1", "display")), ["none", "none"]),
    ("the frames are next to each other", nothing, BESIDE, True),
    ("the legs that differ are highlighted", nothing, in_both(LEGS), [2, 2]),
    ("the other lines fade", nothing, in_both(OPACITY), ["0.25", "0.25"]),
    ("a city that is pointed at is shown in both", point_in(FIRST, place(2)), in_both(f"({TIP}).split('\\n')[0]"), [CITY_2, CITY_2]),
    ("in the second too", point_in(SECOND, place(3)), in_both(f"({TIP}).split('\\n')[0]"), ["City 3, customer 2"] * 2),
    ("the wheel zooms both", turn_in(FIRST, -200), f"[...{ZOOMED}, {ALIKE}]", [True, True, True]),
    ("from the second too", turn_in(SECOND, -200), ALIKE, True),
    ("a button shows the whole of both", click_in(SECOND, "[data-do=whole]"), f"[...{ZOOMED}, {ALIKE}]", [False, False, True]),
    ("a button hides the differences", click_switch, in_both(VISIBLE), ["hidden", "hidden"]),
    ("it says so", nothing, PRESSED, "false"),
    ("all lines are then as in each page", nothing, in_both(OPACITY), ["1", "1"]),
    ("it shows them again", click_switch, in_both(VISIBLE), ["visible", "visible"]),
    ("Tab goes to the first frame from there", press("Tab"), inside(FIRST, FOCUS), "Zoom in"),
    ("and back", press("Shift+Tab"), FOCUS, "Differences"),
    ("Enter hides the differences", press("Enter"), PRESSED, "false"),
    ("and shows them", press("Enter"), PRESSED, "true"),
    ("the page is no wider than the window", nothing, SIDEWAYS, False),
    ("no message on the console", nothing, "messages", []),
]
ON_A_PHONE = [
    ("on a phone, the frames are below each other", nothing, BELOW, True),
    ("and the page is no wider", nothing, f"{SIDEWAYS} || ({in_both('document.documentElement.scrollWidth')}).some(width => width > innerWidth)", False),
    ("a tap shows a city in both", tap_in(FIRST, 2), in_both(f"({TIP}).split('\\n')[0]"), [CITY_2, CITY_2]),
    ("the button hides the differences", click_switch, in_both(VISIBLE), ["hidden", "hidden"]),
    ("no message on the console", nothing, "messages", []),
]


def try_both(tests, problem):
    """Tests the page of two plans."""
    browser = tests.browser
    tests.write("plan.vrp", problem)
    tests.write("a.sol", PLAN_A)
    tests.write("b.sol", PLAN_B)
    page = tests.plot("--html", "plan.vrp", "a.sol", "b.sol")
    for scheme in ("light", "dark"):
        open_both(tests, page, width=1200, scheme=scheme)
        tests.follow(ON_A_WIDE_SCREEN)
        try_contrast(tests, scheme)
        open_both(tests, page, width=390, height=844, scheme=scheme, finger=True)
        tests.follow(ON_A_PHONE)
    try_frames(tests, page)
    try_equal(tests)
    try_policy(tests, page)
    try_file_names(tests)
    browser.show_as(media="print")
    tests.same("paper has both pictures", browser.evaluate(f"({BOXES}).every(box => box.height > 300)"), True)


def open_both(tests, page, **shown):
    tests.write("page.html", page)
    tests.browser.open(tests.folder / "page.html")
    tests.browser.show_as(**shown)
    tests.browser.point(0, 0)


def try_contrast(tests, scheme):
    """A highlighted leg has enough contrast."""
    x, y = tests.browser.evaluate(at(FIRST, f"(([a, b], [c, d]) => [(a + c) / 2, (b + d) / 2])({place(2)}, {place(3)})"))
    seen = pixels_of(tests.browser.picture(clip={"x": x - 8, "y": y - 8, "width": 17, "height": 17, "scale": 1}))
    paper = colour_at(seen, 0, 0)
    most = max(contrast(colour_at(seen, i, j), paper) for i in range(17) for j in range(17))
    tests.same(f"{scheme}: a leg that differs has a contrast of 3: {most:.2f}", most >= 3, True)


def try_frames(tests, page):
    """Each frame contains the page that plot prints for its file."""
    for file, frame in (("a.sol", FIRST), ("b.sol", SECOND)):
        alone = tests.plot("--html", "plan.vrp", file).decode()
        tests.same(f"the frame of {file} is its page", page.decode().count(escaped(alone)), 1)
        tests.same(f"the browser reads it from there for {file}", tests.browser.evaluate(f"{frame}.srcdoc") == alone, True)


def escaped(text):
    return text.replace("&", "&amp;").replace("<", "&lt;").replace('"', "&quot;")


def try_equal(tests):
    """Two solutions with the same cost, and with the same legs."""
    tests.write("c.sol", PLAN_A.replace("1 2\n", "2 1\n"))
    open_both(tests, tests.plot("--html", "plan.vrp", "a.sol", "c.sol"))
    tests.same("legs have no direction", tests.browser.evaluate(TEXT), "DifferencesBoth have the same cost. They have the same legs.")
    tests.same("no leg is highlighted", tests.browser.evaluate(in_both(LEGS)), [0, 0])


def try_policy(tests, page):
    """The content security policy allows only the files of the repository."""
    ran = "document.querySelector('#difference').textContent !== ''"
    framed = inside(FIRST, "document.querySelector('#stage').classList.contains('live')")
    for what, old, new, asked, wanted in (
            ("the script of the page runs", b"", b"", ran, True),
            ("another script does not", b"'use strict';\n(() => {\nconst frames", b"'use strict'; \n(() => {\nconst frames", ran, False),
            ("the scripts of the frames run", b"", b"", framed, True),
            ("another script in a frame does not", b"'use strict';\n(() => {\nconst REACH", b"'use strict'; \n(() => {\nconst REACH", framed, False),
            ("the style of the page is applied", b"", b"", style("main", "display"), "grid"),
            ("another style is not", b"\n* {", b"\n * {", style("main", "display"), "block")):
        open_both(tests, page.replace(old, new, 1) if old else page)
        tests.same(what, tests.browser.evaluate(asked), wanted)


def try_file_names(tests):
    """Markup in the name of a file stays text."""
    name = '<img src=x onerror=alert(1)>&amp;".sol'
    tests.write(name, PLAN_A)
    open_both(tests, tests.plot("--html", "plan.vrp", "b.sol", name))
    tests.same("the heading has the name of the file", tests.browser.evaluate(text_of("h1")), f"b.sol and {name}")
    tests.same("its frame too", tests.browser.evaluate(f"{SECOND}.title"), name)
    tests.same("markup in it makes no element", tests.browser.evaluate("document.querySelectorAll('img').length"), 0)
