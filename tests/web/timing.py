"""How long a dragged key waits for its outcome, beside a fixed task of another worker."""
from .browser import Browser
from .page_case import KEY

# What notes when the pointer moved, and when what the key carries has an outcome after that.
NOTE = """(() => {
  const carried = document.querySelector('.carried');
  let moved = 0, place = -1, tell = () => {};
  window.outcomeCame = () => new Promise(resolve => { tell = resolve; });
  addEventListener('pointermove', event => {
    // after a change of the page the browser tells again where the pointer is
    if (event.clientX === place) return;
    place = event.clientX;
    moved = event.timeStamp;
  }, true);
  new MutationObserver(() => {
    if (!moved || !carried.textContent.includes(': ')) return;
    tell(performance.now() - moved);
    moved = 0;
  }).observe(carried, {childList: true});
})()"""
# What notes when the first balance stands, counted from the navigation on.
FIRST = """new MutationObserver((_, it) => {
  const text = document.querySelector('#balance')?.textContent ?? '..';
  if (text === '..') return;
  window.firstBalance = performance.now();
  it.disconnect();
}).observe(document, {childList: true, subtree: true, characterData: true})"""
# Counting is a task that has nothing of the page in it.
COUNT = "let sum = 1; for (let at = 0; at < {}; at++) sum = Math.imul(sum, 31) + at | 0"
# A worker that counts, and replies.
EMPTY = f"""(() => {{
  const text = `onmessage = () => {{
    {COUNT.format(6_000_000)};
    postMessage(sum);
  }}`;
  const worker = new Worker(URL.createObjectURL(new Blob([text])));
  window.emptyTask = () => new Promise(resolve => {{
    const begun = performance.now();
    worker.onmessage = () => resolve(performance.now() - begun);
    worker.postMessage(0);
  }});
}})()"""
# The milliseconds of a processor from which on a task holds up what the user does, and what takes
# about as long.
LONG_TASK, LONG_COUNTS = 50.0, 8_000_000


def long_task(browser: Browser) -> float:
    """How many milliseconds a task of the page may take: on a slow computer as an empty one."""
    count = f"(() => {{ {COUNT.format(LONG_COUNTS)}; window.counted = sum; }})()"

    def act() -> None:
        browser.value(count)

    return max(LONG_TASK, browser.longest_task(act))


def first_balance(browser: Browser, address: str) -> float:
    """The milliseconds from the navigation to the first balance."""
    browser.call("Page.addScriptToEvaluateOnNewDocument", source=FIRST)
    browser.open(address)
    return float(browser.wait("window.firstBalance"))


class Drag:
    """The key of the first session that is lost, taken by the pointer."""

    def __init__(self, browser: Browser) -> None:
        self.browser = browser
        self.x, self.y = browser.middle(KEY)
        browser.value(NOTE)
        browser.value(EMPTY)
        browser.mouse("mouseMoved", self.x, self.y)
        browser.mouse(
            "mousePressed", self.x, self.y, button="left", buttons=1, clickCount=1
        )

    def outcome(self, by: float) -> float:
        """The milliseconds from a move of the pointer to the outcome at its turn."""
        self.browser.value("window.came = outcomeCame(), 0")
        self.browser.mouse("mouseMoved", self.x + by, self.y, button="left", buttons=1)
        return float(self.browser.value("came"))

    def empty(self) -> float:
        """The milliseconds of the task that has nothing of the page in it."""
        return float(self.browser.value("emptyTask()"))

    def end(self) -> None:
        self.browser.key("Escape")
        self.browser.mouse("mouseReleased", self.x, self.y, button="left", clickCount=1)


def dragged(browser: Browser, moves: int) -> tuple[list[float], list[float]]:
    """The milliseconds of each move's outcome, and those of the empty task beside it."""
    drag = Drag(browser)
    pairs = [(drag.outcome(5 + move), drag.empty()) for move in range(moves)]
    drag.end()
    outcomes, empties = zip(*pairs)
    return list(outcomes), list(empties)


def ratio(browser: Browser, moves: int) -> float:
    """How many empty tasks the outcome of a move takes, by the least of both: other work of the
    computer makes single ones longer, and hardly all of them."""
    outcomes, empties = dragged(browser, moves)
    return min(outcomes) / min(empties)
