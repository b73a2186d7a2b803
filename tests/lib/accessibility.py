"""How a page looks on a narrow screen, in light and dark, and what a screen reader reads aloud."""
from __future__ import annotations

from browser import Window

# The least contrast, as WCAG 2 defines it, of small and of large text with its background.
CONTRAST, LARGE_CONTRAST = 4.5, 3.0
# A narrow screen, and the least sizes of fields, buttons and letters on it, in CSS pixels.
NARROW, MIN_TARGET, MIN_LETTERS = (320, 640), 24, 11
# Returns each visible text and placeholder, with its contrast, the size of its letters in CSS pixels, and whether WCAG 2 counts it
# as large.
CONTRASTS = """
const parts = (text) => { const [r, g, b, a = 1] = text.match(/[\\d.]+/g).map(Number); return [r, g, b, a]; };
const over = ([r, g, b, a], under) => [r, g, b].map((it, at) => it * a + under[at] * (1 - a));
const light = (color) => color.map((it) => it / 255).map((it) => (it <= 0.04045 ? it / 12.92 : ((it + 0.055) / 1.055) ** 2.4))
  .reduce((sum, it, at) => sum + it * [0.2126, 0.7152, 0.0722][at], 0);
const ground = (it) => it === null ? (matchMedia('(prefers-color-scheme: dark)').matches ? [18, 18, 18] : [255, 255, 255])
  : over(parts(getComputedStyle(it).backgroundColor), ground(it.parentElement));
const ratio = (color, under) => {
  const [high, low] = [light(over(parts(color), under)), light(under)].sort((a, b) => b - a);
  return (high + 0.05) / (low + 0.05);
};
const found = [];
for (const it of document.querySelectorAll('body *')) {
  const style = getComputedStyle(it), picture = it.closest('svg');
  if (it.closest('template, script') || !it.getClientRects().length) continue;
  const text = [...it.childNodes].filter((node) => node.nodeType === 3).map((node) => node.textContent).join(' ').trim();
  const size = parseFloat(style.fontSize), isLarge = size >= 24 || (size >= 18.66 && style.fontWeight >= 700);
  if (text) found.push([text, ratio(picture ? style.fill : style.color, ground(picture?.parentElement ?? it)), size, isLarge]);
  if (it.placeholder) found.push([it.placeholder, ratio(getComputedStyle(it, '::placeholder').color, ground(it)), size, isLarge]);
}
return found;
"""
# Returns the elements that are wider than the screen or their picture, and the fields and buttons that are too small.
UNFIT = """
const shown = (selector) => [...document.querySelectorAll(selector)].filter((it) => it.getClientRects().length);
const box = (it) => it.getBoundingClientRect();
const wide = shown('body *').filter((it) => box(it).right > innerWidth + 1);
const small = shown('input, button').filter((it) => box(it).height < arguments[0]);
const cut = shown('svg text').filter((it) => box(it).left < box(it.closest('svg')).left - 1);
const whole = [document.documentElement].filter((it) => it.scrollWidth > innerWidth);
return [...wide, ...small, ...cut, ...whole].map((it) => it.outerHTML.slice(0, 80));
"""
# Fields, buttons, charts, and lists that can be scrolled by keyboard.
NAMED = "input, button, svg[role], ol[tabindex]"


def faults(window: Window) -> list[str]:
    """Returns what is hard to read, does not fit on a narrow screen, or has no name for a screen reader."""
    found = []
    for scheme in ("light", "dark"):
        window.emulate(*NARROW, scheme)
        found += [f"does not fit, or is too small: {it}" for it in window.run(UNFIT, MIN_TARGET)]
        for text, ratio, size, is_large in window.run(CONTRASTS):
            if ratio < (LARGE_CONTRAST if is_large else CONTRAST):
                found.append(f"in {scheme}, the contrast of {text!r} is {ratio:.2f}")
            if size < MIN_LETTERS:
                found.append(f"the letters of {text!r} are {size} pixels high")
    window.emulate()
    shown = [it for it in window.driver.find_elements("css selector", NAMED) if it.is_displayed()]
    found += [f"has no name: {it.get_property('outerHTML')[:80]}" for it in shown if not it.accessible_name]
    return found if window.run("return document.documentElement.lang") and window.driver.title else [*found, "no language or no title"]
