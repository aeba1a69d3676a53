"""python3 -m trials.page_looks [--restore FILE] [--handover FILE] [--large FOLDER] OUT: pictures of
what `handover page` writes, in the folder OUT.

Rebuilds the samples, a release with flaws, one of 4,096 places, and the large release of
docs/RUNBOOK.md if its folder is named (made by `samples/make_large FOLDER`), writes a page of each,
and opens it from its file in headless Chromium (Debian's package `chromium`), at 400 and at 1,600
pixels, light and dark: OUT has a picture of each, and the page as it is printed. Of each it tests
that nothing but the page is asked for, that no script, style or message stands on the console, that
the page is not wider than the window, that no two labels of the picture overlap, and that each text
has a contrast of 4.5 at least to what is behind it, and each mark one of 3 (WCAG 2.2, AA).

The last line is `N passed, M failed`."""
import base64
import json
import os
import select
import shutil
import subprocess
import sys
from collections.abc import Collection

from tests.cases.page import many_places
from tests.support import arguments_of
from tests.support import built
from tests.support.files import write
from tests.support.flawed import draw_release
from tests.support.releases import SAMPLES
from tests.support.stage import Stage
from tests.support.stores import run

WIDTHS, LOOKS = (400, 1600), ('light', 'dark')
# How long the browser may take for an answer.
SECONDS = 60
# The texts and marks of a page whose contrast is too small, each with it.
CONTRASTS = r"""(() => {
  const parsed = text => (text.match(/[\d.]+/g) || []).map(Number);
  const part = v => (v /= 255, v <= 0.03928 ? v / 12.92 : ((v + 0.055) / 1.055) ** 2.4);
  const light = c => 0.2126 * part(c[0]) + 0.7152 * part(c[1]) + 0.0722 * part(c[2]);
  const behind = e => {
    for (; e; e = e.parentElement) {
      const c = parsed(getComputedStyle(e).backgroundColor);
      if (c.length == 3 || c[3] == 1) return c;
    }
    return [255, 255, 255];
  };
  const ratio = (a, b) => {
    const [x, y] = [light(a), light(b)].sort((p, q) => q - p);
    return (x + 0.05) / (y + 0.05);
  };
  const found = [];
  const check = (e, color, least) => {
    const r = ratio(parsed(color), behind(e.parentElement));
    if (r < least) found.push([e.tagName, (e.id || e.textContent).slice(0, 30), r]);
  };
  for (const e of document.body.querySelectorAll('*')) {
    const style = getComputedStyle(e);
    if ([...e.childNodes].some(n => n.nodeType == 3 && n.data.trim()) && e.tagName != 'title')
      check(e, e instanceof SVGElement ? style.fill : style.color, 4.5);
    else if (e.closest('defs') && e.tagName != 'defs')
      check(e, style.fill == 'none' || style.stroke != 'none' ? style.stroke : style.fill, 3);
  }
  return found;
})()"""
# The labels of the picture that overlap, in pairs.
OVERLAPS = r"""(() => {
  const all = [...document.querySelectorAll('svg text')].map(
    e => [e.textContent, e.getBoundingClientRect()]);
  const meet = (r, s) =>
    r.left < s.right && s.left < r.right && r.top < s.bottom && s.top < r.bottom;
  return all.flatMap(([a, r], i) => all.slice(i + 1).filter(([_, s]) => meet(r, s))
                     .map(([b]) => [a, b]));
})()"""
counts = {'passed': 0, 'failed': 0}


def check(what: str, found: object, wanted: object) -> None:
    counts['passed' if found == wanted else 'failed'] += 1
    if found != wanted:
        print(f'WRONG {what}: {str(found)[:400]}', flush=True)


class Browser:
    """Headless Chromium, which is asked through a pair of pipes (its DevTools protocol)."""

    def __init__(self, program: str, room: str) -> None:
        asked, self.asks = os.pipe()
        self.answers, answered = os.pipe()

        def prepare() -> None:
            # The browser reads file 3 and writes file 4.
            ends = os.dup(asked), os.dup(answered)
            os.dup2(ends[0], 3)
            os.dup2(ends[1], 4)

        words = ['--headless=new', '--no-sandbox', '--disable-gpu', '--hide-scrollbars',
                 '--remote-debugging-pipe', f'--user-data-dir={room}']
        self.child = subprocess.Popen([program, *words, 'about:blank'], preexec_fn=prepare,
                                      close_fds=False, stdout=subprocess.DEVNULL,
                                      stderr=subprocess.DEVNULL)
        self.come, self.number, self.events, self.session = b'', 0, [], None
        target = self.ask('Target.createTarget', url='about:blank')['targetId']
        self.session = self.ask('Target.attachToTarget', targetId=target, flatten=True)['sessionId']
        for it in ('Page', 'Network', 'Log', 'Runtime'):
            self.ask(f'{it}.enable')

    def next(self) -> dict:
        while b'\0' not in self.come:
            is_there = select.select([self.answers], [], [], SECONDS)[0]
            if not is_there or not (piece := os.read(self.answers, 1 << 20)):
                sys.exit('page_looks: the browser does not answer')
            self.come += piece
        message, _, self.come = self.come.partition(b'\0')
        return json.loads(message)

    def ask(self, method: str, **params: object) -> dict:
        self.number += 1
        session = {'sessionId': self.session} if self.session else {}
        message = {'id': self.number, 'method': method, 'params': params} | session
        os.write(self.asks, json.dumps(message).encode() + b'\0')
        while (message := self.next()).get('id') != self.number:
            self.events.append(message)
        if 'error' in message:
            sys.exit(f'page_looks: {method}: {message["error"]}')
        return message['result']

    def value(self, expression: str) -> object:
        found = self.ask('Runtime.evaluate', expression=expression, returnByValue=True)
        return found['result'].get('value')

    def open(self, path: str, width: int, look: str) -> None:
        self.ask('Emulation.setEmulatedMedia',
                 features=[{'name': 'prefers-color-scheme', 'value': look}])
        self.ask('Emulation.setDeviceMetricsOverride', width=width, height=900, deviceScaleFactor=1,
                 mobile=width < 500)
        self.events.clear()
        self.ask('Page.navigate', url=f'file://{path}')
        while not any(it.get('method') == 'Page.loadEventFired' for it in self.events):
            self.events.append(self.next())

    def seen(self, *methods: Collection[str]) -> list[dict]:
        return [it['params'] for it in self.events if it.get('method') in methods]

    def picture(self, width: int) -> bytes:
        height = self.ask('Page.getLayoutMetrics')['cssContentSize']['height']
        clip = {'x': 0, 'y': 0, 'width': width, 'height': min(height, 16_000), 'scale': 1}
        found = self.ask('Page.captureScreenshot', captureBeyondViewport=True, clip=clip)
        return base64.b64decode(found['data'])

    def print(self) -> bytes:
        return base64.b64decode(self.ask('Page.printToPDF', printBackground=False)['data'])

    def close(self) -> None:
        self.ask('Browser.close')
        self.child.wait(SECONDS)


def make_stores(stage: Stage, large: str | None) -> list[str]:
    """Rebuilds the stores, and gives the names of the pages."""
    releases = {it.replace(' ', '-'): release for it, release in SAMPLES.items()}
    releases |= {'flawed': draw_release(5), 'many': many_places()}
    for name, release in releases.items():
        release.rebuild(stage, f'{name}.db')
    if large:
        mail = os.path.abspath(f'{large}/mail')
        run(stage, f'init --store large.db --manifest {mail}/manifest.csv')
        run(stage, f'take --store large.db {mail}/deposits', statuses=(0, 1))
    return [*releases, *(['large'] if large else [])]


def look_at(browser: Browser, name: str, path: str, out: str) -> None:
    for width in WIDTHS:
        for look in LOOKS:
            browser.open(path, width, look)
            what = f'{name} at {width}, {look}'
            check(f'requests of {what}',
                  [it['request']['url'] for it in browser.seen('Network.requestWillBeSent')],
                  [f'file://{path}'])
            check(f'console of {what}',
                  browser.seen('Log.entryAdded', 'Runtime.exceptionThrown',
                               'Runtime.consoleAPICalled'), [])
            check(f'width of {what}', browser.value('document.documentElement.scrollWidth'), width)
            check(f'contrast in {what}', browser.value(CONTRASTS), [])
            check(f'labels of {what}', browser.value(OVERLAPS), [])
            write(f'{out}/{name}-{width}-{look}.png', browser.picture(width))
    write(f'{out}/{name}.pdf', browser.print())


def main() -> int:
    arguments = arguments_of(__doc__)
    for it in ('restore', 'handover'):
        arguments.add_argument(f'--{it}', default=built(it), metavar='FILE')
    arguments.add_argument('--large', metavar='FOLDER', help='what samples/make_large made')
    arguments.add_argument('out', metavar='OUT')
    given = arguments.parse_args()
    if not (chromium := shutil.which('chromium') or shutil.which('google-chrome')):
        sys.exit('page_looks: there is no chromium')
    os.makedirs(given.out, exist_ok=True)
    programs = {it: os.path.abspath(getattr(given, it)) for it in ('restore', 'handover')}
    with Stage(programs) as stage:
        names = make_stores(stage, given.large)
        browser = Browser(chromium, stage.at('browser'))
        for name in names:
            page = os.path.abspath(f'{given.out}/{name}.html')
            if os.path.exists(page):
                os.remove(page)
            run(stage, f'page --store {name}.db {page}', 'handover')
            look_at(browser, name, page, given.out)
        browser.close()
    print(f'{counts["passed"]} passed, {counts["failed"]} failed')
    return 1 if counts['failed'] else 0


sys.exit(main())
