"""Steps of the tests of pages: expressions that are evaluated in a page, and actions of mouse, fingers and keys."""

# ---- expressions that the steps evaluate in a page

TIP = "document.querySelector('#tip').hidden ? '' : document.querySelector('#tip').textContent"
FOCUS = "(e => e.getAttribute('aria-label') || e.labels?.[0]?.textContent.trim() || e.textContent)(document.activeElement)"
COLUMN = "[...document.querySelectorAll('#routes > table > tbody > tr:not(.stops)')].map(row => row.cells[0].textContent).join(' ')"
# The list of the stops of a route, line by line, after the number of the row above it.
LIST = """(line => line === null ? '' : [line.previousSibling.cells[0].textContent, ...[...line.querySelectorAll('tr')].map(row =>
    [...row.cells].map(cell => cell.textContent).join(' ').trim())].join(', '))(document.querySelector('.stops'))"""
SORTED = "[...document.querySelectorAll('thead th[aria-sort]')].map(head => head.textContent + ' ' + head.ariaSort).join()"
PRESSED = "[...document.querySelectorAll('tbody button[aria-pressed=true]')].map(button => button.textContent).join()"
LIT = "(e => e.points.length === 0 ? 'none' : e.points.length + ' ' + e.getAttribute('stroke'))(document.querySelector('#lit'))"
STOPS = "document.querySelector('#stops').getAttribute('d').split('h0').length - 1 + ' '"
FADED = "getComputedStyle(document.querySelector('polygon:not(#lit)')).strokeOpacity"
BOX = "document.querySelector('#stage svg').getAttribute('viewBox').split(' ').map(Number)"
SIDEWAYS = "document.documentElement.scrollWidth > innerWidth"
ELEMENTS = "document.querySelectorAll('*').length"


def text_of(what):
    return f"document.querySelector('{what}').textContent"


def style(what, name):
    return f"getComputedStyle(document.querySelector('{what}')).{name}"


def place(city):
    """Returns an expression for the position of a city in the window."""
    return f"""(() => {{
        const spot = document.querySelector('#cities').textContent.trim().split('\\n')[{city - 1}].split(' ')[0].split(',');
        const point = new DOMPoint(Number(spot[0]), Number(spot[1]));
        const {{ x, y }} = point.matrixTransform(document.querySelector('#stage g').getScreenCTM());
        return [x, y];
    }})()"""


def middle(element):
    return f"""(() => {{
        const box = document.querySelector('{element}').getBoundingClientRect();
        return [box.left + box.width / 2, box.top + box.height / 2];
    }})()"""


def place_of(browser, city):
    return browser.evaluate(place(city))


def middle_of(browser, element):
    return browser.evaluate(middle(element))


STATUS = text_of("#where")
IN_VIEW = """(([ring, box]) => ring.left > box.left && ring.right < box.right && ring.top > box.top && ring.bottom < box.bottom)(
    ['#mark', '#stage'].map(element => document.querySelector(element).getBoundingClientRect()))"""
MARKED_2 = f"(([x, y], [u, v]) => Math.hypot(x - u, y - v) < 1)({place(2)}, {middle('#mark')})"


# ---- steps: an action, and the expected state of the page

def point_at(city):
    return lambda browser: browser.point(*place_of(browser, city))


def point_on(element):
    return lambda browser: browser.point(*middle_of(browser, element))


def click_on(element):
    return lambda browser: browser.click(*middle_of(browser, element))


def click_city(city):
    return lambda browser: browser.click(*place_of(browser, city))


def press(*keys):
    return lambda browser: browser.press(*keys)


def heading(column):
    return f"thead th:nth-child({column}) button"


def row(place):
    return f"#routes > table > tbody > tr:nth-child({place}) button"


def stop(place):
    return f".stops tbody tr:nth-child({place}) button"


def drag_picture(browser):
    x, y = middle_of(browser, "#stage")
    browser.drag(x, y, x + 50, y + 30)


def turn(by):
    return lambda browser: browser.turn_wheel(*middle_of(browser, "#stage"), by)


def tap(city):
    def act(browser):
        browser.touch("touchStart", place_of(browser, city))
        browser.touch("touchEnd")
    return act


def spread_fingers(browser):
    x, y = middle_of(browser, "#stage")
    browser.touch("touchStart", (x - 20, y), (x + 20, y))
    browser.touch("touchMove", (x - 40, y), (x + 40, y))
    browser.touch("touchEnd")


def swipe(across=60, down=0):
    """Moves one finger across the picture, in steps, as a hand does."""
    def act(browser):
        x, y = middle_of(browser, "#stage")
        browser.touch("touchStart", (x, y))
        for step in range(1, 11):
            browser.touch("touchMove", (x + across * step / 10, y + down * step / 10))
        browser.touch("touchEnd")
    return act


def nothing(browser):
    pass
