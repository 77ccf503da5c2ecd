"""The page without a mouse, without a screen, with weak eyes and on a small screen: names, focus, contrast, sizes, widths, the axis."""
from check_files import equal
from files import rows
from said import ROOT

# What must have a name for who does not see it.
NAMED = {'button', 'combobox', 'grid', 'link', 'slider', 'textbox', 'table', 'progressbar', 'article', 'navigation', 'columnheader', 'option'}
# The least contrast of any text, the least size of what is pressed, in pixels, and the least width of what shows the focus.
CONTRAST = 7
PRESSED = 24
OUTLINE = 2

# The least contrast of the texts of each kind of element.
CONTRASTS = '''const linear = (part) => (part <= 0.03928 ? part / 12.92 : ((part + 0.055) / 1.055) ** 2.4);
const light = ([red, green, blue]) => 0.2126 * linear(red / 255) + 0.7152 * linear(green / 255) + 0.0722 * linear(blue / 255);
const parsed = (colour) => colour.match(/[\\d.]+/g).map(Number);
const behind = (one) => {
  for (; one; one = one.parentElement) {
    const colour = parsed(getComputedStyle(one).backgroundColor);
    if (colour[3] !== 0) return colour;
  }
  return [255, 255, 255];
};
const least = {}, texts = document.createTreeWalker(document.body, NodeFilter.SHOW_TEXT);
while (texts.nextNode()) {
  const one = texts.currentNode.parentElement;
  if (texts.currentNode.textContent.trim() === "" || !one.checkVisibility() || one.closest(".unseen, script")) continue;
  const [a, b] = [light(parsed(getComputedStyle(one).color)), light(behind(one))], name = `${one.tagName}.${one.className}`;
  least[name] = Math.min(least[name] ?? 21, (Math.max(a, b) + 0.05) / (Math.min(a, b) + 0.05));
}
return Object.entries(least).filter(([, contrast]) => contrast < arguments[0])'''
SMALL = '''return [...document.querySelectorAll("button, a, select, input, summary, [tabindex='0']")].filter((one) => one.checkVisibility())
  .filter((one) => Math.min(one.getBoundingClientRect().width, one.getBoundingClientRect().height) < arguments[0]).map((one) => one.textContent || one.tagName)'''
FOCUSED = '''const one = document.activeElement;
if (one === document.body) return null;
const shows = (style) => style.outlineStyle !== "none" && parseFloat(style.outlineWidth) >= arguments[0];
const box = one.getBoundingClientRect(), around = one.closest(".drop") ?? one;
return [one.dataset.test ?? one.textContent, shows(getComputedStyle(around)), box.bottom > 0 && box.top < innerHeight]'''
OVER = 'return document.documentElement.scrollWidth - document.documentElement.clientWidth'
LABELS = '''const axis = document.querySelector(".axis").getBoundingClientRect();
return [...document.querySelectorAll(".tick")].filter((tick) => tick.textContent !== "")
  .map((tick) => [tick.textContent, tick.getBoundingClientRect().left >= axis.left - 1 && tick.getBoundingClientRect().right <= axis.right + 1])'''


def cases(folder):
    named = {name: case for name, case in globals().items() if name.startswith('case_')}
    for name, case in named.items():
        yield name[5:].replace('_', ' '), lambda page, case=case: case(page, folder)


def three_open(page):
    """An accepted file, and a refused one of either form, all open."""
    page.anew()
    page.drop(*(ROOT / 'samples' / name for name in ('selection.trc', 'wrong-row.trc', 'no-such-date.asc')))
    page.until_done(3)
    page.browser.run('document.querySelector("details").open = true; for (const one of document.querySelectorAll("[data-test=open]")) one.click()')
    page.browser.until('return document.querySelector("[data-test=cursor]").textContent && document.querySelectorAll("[data-test=link]").length === 3')


def case_all_has_a_name(page, folder):
    three_open(page)
    for _ in range(2):
        nodes = [node for node in page.browser.cdp('Accessibility.getFullAXTree')['nodes'] if not node.get('ignored')]
        roles = [node['role']['value'] for node in nodes]
        nameless = [node['role']['value'] for node in nodes if node['role']['value'] in NAMED and not node.get('name', {}).get('value', '').strip()]
        equal('without a name', nameless, [])
        assert {'button', 'slider', 'grid', 'textbox', 'table', 'link'} <= set(roles), roles
        page.browser.run('document.querySelector("[data-test=list]").focus()')
        page.browser.keys('\ue015')


def case_all_can_be_read(page, folder):
    three_open(page)
    try:
        for theme in ('light', 'dark'):
            page.browser.theme(theme)
            equal(f'{theme}: weak', page.browser.run(CONTRASTS, CONTRAST), [])
    finally:
        page.browser.theme('light')
    equal('small', page.browser.run(SMALL, PRESSED), [])


def case_the_focus_is_seen(page, folder):
    three_open(page)
    page.browser.run('document.activeElement.blur(); window.scrollTo(0, 0)')
    reached = 0
    for reached in range(100):
        page.browser.keys('\ue004')
        focused = page.browser.run(FOCUSED, OUTLINE)
        if focused is None:
            break
        equal(f'{focused[0]}, whether it is seen', focused[1:], [True, True])
    assert 25 < reached < 99, reached


def case_on_a_small_screen(page, folder):
    """Nothing runs over the width, whatever the file is called; and the axis has a label that can be read, however deep it is zoomed."""
    late = [b'%d) %d.%03d 1 Rx 0123 0' % (at + 1, 281_474_976_000 + at * 7, at) for at in range(90)]
    path = folder / f'{"long-name" * 27}.trc'
    path.write_bytes(rows(12, *late))
    other = folder / f'{"W" * 240}.trc'
    other.write_bytes(rows(12, b'1) 2007.000 1 Rx 0123 0', b'2) 2000.000 1 Rx 0123 0', b'3) 9000.000 1 Rx'))
    try:
        page.anew()
        page.drop(path, other)
        page.until_done(2)
        page.browser.size(360, 740)
        page.browser.run('for (const one of document.querySelectorAll("[data-test=open]")) one.click()')
        page.browser.until('return document.querySelector("[data-test=cursor]").textContent')
        equal('what runs over the width', page.browser.run(OVER), 0)
        for hook in ['zoom-in'] * 16 + ['zoom-out'] * 18:
            check_labels(page)
            page.browser.run('document.querySelector(`[data-test="${arguments[0]}"]`).click()', hook)
    finally:
        page.browser.size(1280, 900)


def check_labels(page):
    labels = page.browser.run(LABELS)
    assert labels and all(inside for _, inside in labels), (page.text('shows'), labels)
