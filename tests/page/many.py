"""Tests of pages of plans with many routes, on a wide screen and on a phone, and of the colours of routes."""

from itertools import combinations
import math

from pixels import colour_at, contrast, difference, pixels_of
from steps import FOCUS, LIT, SIDEWAYS, STOPS, TIP, click_on, middle_of, nothing, point_on, press, row, spread_fingers, style, swipe, tap

ROUTES, STOPS_OF_A_ROUTE = 24, 3
ROW = "[...document.querySelectorAll('#tools button, #tools input')].map(part => part.getBoundingClientRect())"
# Whether the controls of the picture are in one row, inside the window and not over each other.
IN_ONE_ROW = f"""(boxes => boxes.every((box, i) => box.width > 20 && box.left >= 0 && box.right <= innerWidth
    && box.top < boxes[0].bottom && box.bottom > boxes[0].top && (i === 0 || box.left >= boxes[i - 1].right)))({ROW})"""
PAGE_MOVED = "(moved => (scrollTo(0, 0), moved))(scrollY > 20)"
WIDTHS = """(([thin, line]) => Math.round(100 * thin / line) / 100)(['.depot-lines', '#stage svg > g']
    .map(what => parseFloat(getComputedStyle(document.querySelector(what)).strokeWidth)))"""
# The elements of the picture in the order in which they are drawn, without repetitions.
ORDER = """[...document.querySelectorAll('#stage svg > g > *')].map(part => part.id || part.getAttribute('class') || part.tagName
    + (part.getAttribute('fill') === 'black' ? '.depot' : '')).filter((name, i, all) => name !== all[i - 1]).join(' ')"""
SWITCH = "[data-do=depot]"
# The least difference of two of the first seven colours by CIEDE2000; a just noticeable one is about 1.
APART = 8
VISIONS = ("none", "protanopia", "deuteranopia", "tritanopia")

ON_A_WIDE_SCREEN = [
    ("the depot is above the numbers", nothing, ORDER, "depot-lines polyline lit path stops g path.depot"),
    ("lines to the depot are thinner", nothing, WIDTHS, 0.5),
    ("and paler", nothing, style(".depot-lines polyline", "strokeOpacity"), "0.5"),
    ("a row lights up its whole route", point_on(row(3)), LIT, "4 #786E00"),
    ("the lines of others fade", nothing, style("#stage svg > g > polyline", "strokeOpacity"), "0.2"),
    ("and more at the depot", nothing, style(".depot-lines polyline", "strokeOpacity"), "0.1"),
    ("its stops do not", nothing, f"({STOPS}) + {style('#stops', 'strokeOpacity')}", f"{STOPS_OF_A_ROUTE} 1"),
    ("a button hides the lines to the depot", click_on(SWITCH), style(".depot-lines", "display"), "none"),
    ("and says so", nothing, f"document.querySelector('{SWITCH}').ariaPressed", "false"),
    ("and shows them again", click_on(SWITCH), style(".depot-lines", "display"), "inline"),
    ("Tab goes there", press("Shift+Tab", "Tab"), FOCUS, "Depot lines"),
    ("the controls are in one row", nothing, IN_ONE_ROW, True),
    ("no message on the console", nothing, "messages", []),
]
ON_A_PHONE = [
    ("the controls are in one row on a phone", nothing, IN_ONE_ROW, True),
    ("and the page is no wider", nothing, SIDEWAYS, False),
    ("a finger moves the page", swipe(0, -120), PAGE_MOVED, True),
    ("and not the picture", nothing, "view", "whole"),
    ("nor does it show a city", nothing, TIP, ""),
    ("a tap shows one", tap(2), f"({TIP}).split('\\n')[0]", "City 2, customer 1"),
    ("two fingers zoom", spread_fingers, "view", "closer"),
    ("then a finger moves the picture", swipe(0, -60), "view", "moved"),
    ("and not the page", nothing, PAGE_MOVED, False),
    ("the button shows the whole", click_on("[data-do=whole]"), "view", "whole"),
    ("and a finger moves the page again", swipe(0, -120), PAGE_MOVED, True),
    ("no message on the console", nothing, "messages", []),
]


def plan(routes):
    """Returns the texts of a problem and of a solution with this many routes, each of three customers on a ray from the depot."""
    places, lines, cost = [(0, 0)], [], 0
    for k in range(routes):
        turn = 2 * math.pi * k / routes
        ray = [(round(r * math.cos(turn + bend)), round(r * math.sin(turn + bend))) for r, bend in ((400, -.05), (700, 0), (400, .05))]
        lines.append(f"Route #{k + 1}: " + " ".join(str(len(places) + stop) for stop in range(STOPS_OF_A_ROUTE)))
        cost += sum(math.floor(math.dist(a, b) + .5) for a, b in zip([(0, 0), *ray], [*ray, (0, 0)]))
        places += ray
    rows = "".join(f"{i} {x} {y}\n" for i, (x, y) in enumerate(places, 1))
    demands = "".join(f"{i} {int(i > 1)}\n" for i in range(1, len(places) + 1))
    return (f"NAME : fan\nTYPE : CVRP\nDIMENSION : {len(places)}\nCAPACITY : 3\nEDGE_WEIGHT_TYPE : EUC_2D\nNODE_COORD_SECTION\n{rows}"
            f"DEMAND_SECTION\n{demands}DEPOT_SECTION\n1\n-1\nEOF\n", "\n".join(lines) + f"\nCost {cost}\n")


def page_of(tests, routes):
    problem, solution = plan(routes)
    tests.write("fan.vrp", problem)
    tests.write("fan.sol", solution)
    return tests.plot("--html", "fan.vrp", "fan.sol")


def try_many_routes(tests):
    few = page_of(tests, 19)
    tests.open(few)
    tests.same("19 routes are closed lines", tests.browser.evaluate("document.querySelectorAll('#stage polygon:not(#lit)').length"), 19)
    tests.same("without a switch", tests.browser.evaluate(f"document.querySelector('{SWITCH}')"), None)
    page = page_of(tests, ROUTES)
    for scheme in ("light", "dark"):
        tests.open(page, width=1200, scheme=scheme)
        tests.go(ON_A_WIDE_SCREEN)
        tests.open(page, width=390, height=700, scheme=scheme, finger=True)
        tests.go(ON_A_PHONE)


# ---- colours

def swatches(tests, count):
    """Returns the colours of the first rows of the table, as they are on the screen, and the colour of the paper in the picture."""
    browser = tests.browser
    places = [middle_of(browser, f"tbody tr:nth-child({k}) .swatch") for k in range(1, count + 1)]
    x, top = places[0]
    column = pixels_of(browser.picture(clip={"x": x - 1, "y": top - 1, "width": 3, "height": places[-1][1] - top + 3, "scale": 1}))
    left, up = browser.evaluate("(box => [box.left + 5, box.top + 5])(document.querySelector('#stage').getBoundingClientRect())")
    paper = pixels_of(browser.picture(clip={"x": left, "y": up, "width": 2, "height": 2, "scale": 1}))
    return [colour_at(column, 1, y - top + 1) for _, y in places], colour_at(paper, 0, 0)


def try_colours(tests):
    """The colours of lines and numbers have enough contrast, and the first seven can be told apart with any colour vision."""
    browser, page = tests.browser, page_of(tests, ROUTES)
    for scheme in ("light", "dark"):
        tests.open(page, width=1200, height=1200, scheme=scheme)
        for part in ("polyline", "text"):
            name = {"polyline": "stroke", "text": "fill"}[part]
            drawn = browser.evaluate(f"[...document.querySelectorAll('#stage g > {part}:not(.depot-lines *)')]"
                                     f".map(part => part.getAttribute('{name}'))")
            shown = browser.evaluate("[...document.querySelectorAll('.swatch')].map(part => part.style.getPropertyValue('--colour'))")
            tests.same(f"the rows have the colours of each {part}", shown, drawn)
        colours, paper = swatches(tests, ROUTES)
        least = min(contrast(colour, paper) for colour in colours)
        tests.same(f"{scheme}: lines and numbers have a contrast of 4.5: {least:.2f}", least >= 4.5, True)
        for vision in VISIONS:
            browser.do("Emulation.setEmulatedVisionDeficiency", type=vision)
            browser.settle()
            seen, _ = swatches(tests, 7)
            least = min(difference(a, b) for a, b in combinations(seen, 2))
            tests.same(f"{scheme}, {vision}: seven colours are apart: {least:.1f}", least >= APART, True)
        browser.do("Emulation.setEmulatedVisionDeficiency", type="none")
