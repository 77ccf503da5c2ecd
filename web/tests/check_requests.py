"""No request leaves the page, and nothing is stored."""
import re
import threading
from http.server import BaseHTTPRequestHandler, ThreadingHTTPServer

from check_files import equal
from page import PAGE
from said import ROOT

# Ways to ask for something elsewhere; each is tried, in the page and in a worker of its own.
IN_PAGE = '''const [to, done] = arguments;
const tries = [
  () => fetch(to + "fetch"),
  () => navigator.sendBeacon(to + "beacon", "x"),
  () => new EventSource(to + "events"),
  () => new WebSocket(to.replace("http", "ws") + "socket"),
  () => { const request = new XMLHttpRequest(); request.open("GET", to + "request"); request.send(); },
  () => { new Image().src = to + "image"; },
  () => add("script", { src: to + "script" }),
  () => add("link", { rel: "stylesheet", href: to + "style" }),
  () => add("link", { rel: "prefetch", href: to + "prefetch" }),
  () => add("iframe", { src: to + "frame" }),
  () => add("object", { data: to + "object" }),
  () => add("video", { src: to + "video" }),
  () => import(to + "module"),
  () => { const form = add("form", { action: to + "form", method: "post", target: "elsewhere" }); form.submit(); },
  () => new Worker(URL.createObjectURL(new Blob([`fetch("${to}worker"); importScripts("${to}imported")`]))),
];
function add(name, given) { const made = Object.assign(document.createElement(name), given); document.body.append(made); return made; }
for (const one of tries) { try { Promise.resolve(one()).catch(() => {}); } catch {} }
setTimeout(() => done(tries.length), 1500);'''

# Ways to bring in another script or style, or another beginning of addresses; told are those that did something. They are tried a moment later, since what the
# browser is asked to run at once is not under the policy.
BROUGHT_IN = '''const done = arguments[0], did = [];
const tries = {
  eval: () => eval("did.push('eval')"),
  function: () => new Function("did", "did.push('function')")(did),
  script: () => add("script", { textContent: "document.documentElement.dataset.brought = 'script'" }),
  handler: () => { document.body.setAttribute("onclick", "this.dataset.brought = 'handler'"); document.body.click(); },
  address: () => add("iframe", { src: "javascript:parent.document.body.dataset.address = 'address'" }),
  data: () => add("script", { src: "data:text/javascript,document.body.dataset.data='data'" }),
  blob: () => add("script", { src: URL.createObjectURL(new Blob(["document.body.dataset.blob = 'blob'"])) }),
  style: () => {
    add("style", { textContent: "main { opacity: 0.5 }" });
    if (getComputedStyle(document.querySelector("main")).opacity === "0.5") did.push("style");
  },
  attribute: () => {
    const made = add("p", {});
    made.setAttribute("style", "opacity: 0.5");
    if (getComputedStyle(made).opacity === "0.5") did.push("attribute");
  },
  base: () => {
    document.head.append(Object.assign(document.createElement("base"), { href: "http://elsewhere.invalid/" }));
    if (document.baseURI.includes("elsewhere")) did.push("base");
  },
};
function add(name, given) { const made = Object.assign(document.createElement(name), given); document.body.append(made); return made; }
setTimeout(() => {
  for (const one of Object.values(tries)) { try { one(); } catch {} }
  const all = () => [...did, ...Object.values(document.documentElement.dataset), ...Object.values(document.body.dataset)];
  setTimeout(() => done(all().filter((one) => one !== "yes").sort()), 500);
});'''

STORED = '''const done = arguments[0];
const databases = indexedDB.databases ? indexedDB.databases().then((all) => all.length, () => 0) : Promise.resolve(0);
databases.then((count) => done([localStorage.length, sessionStorage.length, document.cookie.length, count]));'''


def cases(folder):
    yield 'no request while files are read', no_request
    yield 'no request even if the script asked for one', lambda page: no_request_at_all(page, folder)
    yield 'no script or style but its own', lambda page: nothing_brought_in(page, folder)
    yield 'nothing is stored', nothing_stored


def no_request(page):
    page.browser.log('performance')
    page.anew()
    page.drop(*sorted((ROOT / 'samples').glob('*.trc')))
    page.until_done(len(list((ROOT / 'samples').glob('*.trc'))))
    asked = [word for entry in page.browser.log('performance') for word in [entry['message']] if 'Network.requestWillBeSent"' in word]
    elsewhere = [word for word in asked if '"url":"http' in word or '"url":"ws' in word]
    assert asked, 'the log has no request at all, not even that of the page'
    equal('requests', elsewhere, [])


def no_request_at_all(page, folder):
    came = []

    class Listens(BaseHTTPRequestHandler):
        def do_GET(self):
            came.append(self.path)
            self.send_response(200)
            self.end_headers()

        do_POST = do_GET

        def log_message(self, *words):
            pass

    server = ThreadingHTTPServer(('127.0.0.1', 0), Listens)
    threading.Thread(target=server.serve_forever, daemon=True).start()
    to = f'http://127.0.0.1:{server.server_port}/'
    page.anew()
    tried = page.browser.run_later(IN_PAGE, to)
    equal('requests that came', sorted(came), [])
    open_without_policy(page, folder)
    page.browser.run_later(IN_PAGE, to)
    assert len(came) >= tried // 2, f'without the policy only {came} came'
    server.shutdown()


def open_without_policy(page, folder):
    """The same page without its policy: then what is tried does come, and what is tested is the policy."""
    without = folder / 'without-policy.html'
    without.write_text(re.sub('<meta http-equiv="Content-Security-Policy"[^>]*>', '', PAGE.read_text()))
    page.browser.open(without.as_uri())


def nothing_brought_in(page, folder):
    page.anew()
    equal('what was brought in', page.browser.run_later(BROUGHT_IN), [])
    open_without_policy(page, folder)
    brought = page.browser.run_later(BROUGHT_IN)
    assert len(brought) >= 9, f'without the policy only {brought}'


def nothing_stored(page):
    page.anew()
    page.drop(ROOT / 'samples/dosing.trc')
    page.until_done()
    equal('what is stored', page.browser.run_later(STORED), [0, 0, 0, 0])
